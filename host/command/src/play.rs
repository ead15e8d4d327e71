//! `tunebriar play`: tapes on a board.

use crate::bench::Bench;
use crate::error::{Error, shown, told};
use crate::numbers::grouped;
use crate::pool::plays::{Came, LONGEST_TAPE};
use crate::pool::{Asked, boards};
use crate::source::Source;
use crate::told::Told;
use crate::{report, words};
use clap::Args;
use rusqlite::Connection;
use serde_json::{Value, json};
use std::fmt::Write;
use std::path::PathBuf;
use tunebriar::{RECORD, State};

/// How it is called.
#[derive(Debug, Args)]
#[command(
    after_help = "The tapes are played in their order, in one transaction of the book: \
                        all of them are in it, or none. A tape that is refused is kept with its \
                        refusal and bills nothing; the exit status is then 1."
)]
pub struct Play {
    /// The board
    board: String,
    /// The tapes
    #[arg(required = true, value_name = "TAPE")]
    tapes: Vec<PathBuf>,
    /// Keep nothing, and exit 1, if some tape is refused
    #[arg(long)]
    strict: bool,
    /// Show it, and keep nothing
    #[arg(long)]
    dry_run: bool,
    /// Play the first K records only
    #[arg(long, value_name = "K", requires = "dry_run")]
    first: Option<u64>,
}

/// What is told of a call's tapes; the tapes themselves are gone by then.
#[derive(Default)]
struct Played {
    text: String,
    json: Vec<Value>,
    refused: Vec<String>,
}

impl Play {
    /// Plays the tapes, and says what came of them.
    ///
    /// # Errors
    ///
    /// A board that cannot be played on; with `--strict` a refused tape; files.
    pub fn run(&self, pool: &Asked) -> Result<Told, Error> {
        let tapes = self.tapes.iter();
        let tapes = tapes.map(|tape| Source::look(tape, LONGEST_TAPE));
        let tapes: Vec<Source> = tapes.collect::<Result<_, _>>()?;
        let mut pool = pool.open()?;
        let (played, state) = match self.dry_run {
            true => pool.read(|book| self.played(book, "", &tapes))?,
            false => pool.write(|book, now| self.played(book, now, &tapes))?,
        };
        Ok(self.told(played, state))
    }

    fn played(
        &self,
        book: &Connection,
        now: &str,
        tapes: &[Source],
    ) -> Result<(Played, State), Error> {
        let mut bench = Bench::new(book, now)?;
        bench.take(boards::find(book, &self.board)?)?;
        let mut played = Played::default();
        for tape in tapes {
            self.one(&mut bench, tape, &mut played)?;
        }
        if !self.dry_run {
            bench.keep()?;
        }
        Ok((played, bench.chip().state))
    }

    fn one(&self, bench: &mut Bench, tape: &Source, played: &mut Played) -> Result<(), Error> {
        let name = shown(tape.path());
        let tape = tape.bytes()?;
        let (number, came) = match self.dry_run {
            true => {
                let first = self.first.unwrap_or(u64::MAX);
                (bench.next(), bench.chip().play_first(&tape, first, |_| {}))
            }
            false => bench.play(&name, &tape)?,
        };
        if let Err(refusal) = &came {
            if self.strict {
                return Err(Error::refused(name, *refusal));
            }
            played.refused.push(format!("{name}: {}", told(*refusal)));
        }
        played.json.push(report::json(number, &name, &tape, &came));
        let text = match self.tapes.len() {
            1 => self.report(number, &name, &tape, &came),
            _ => report::line(number, &name, &tape, &came),
        };
        played.text.push_str(&text);
        Ok(())
    }

    /// One tape alone is told in full.
    fn report(&self, number: i64, name: &str, tape: &[u8], came: &Came) -> String {
        let Ok(outcome) = came else {
            return report::line(number, name, tape, came);
        };
        let (played, all) = (outcome.tally.records(), tape.len() / RECORD);
        let (played, all) = (grouped(played), grouped(all));
        let kept = match self.dry_run {
            true => "not kept".to_string(),
            false => format!("play {number}"),
        };
        let mut text = format!("{name}: {played} of {all} records played, {kept}\n");
        text.push_str(&report::tally(&outcome.tally));
        let _ = writeln!(text, "rise       {}", words::meter(outcome.rise));
        text
    }

    fn told(&self, played: Played, state: State) -> Told {
        let mut told = Told::new(
            played.text + &report::state(state),
            json!({
                "board": self.board,
                "kept": !self.dry_run,
                "plays": played.json,
                "after": report::state_json(state),
            }),
        );
        told.refused = refused(&played.refused);
        told
    }
}

/// The first refusal of a call, and how many there were.
#[must_use]
pub fn refused(all: &[String]) -> Option<Error> {
    match all {
        [] => None,
        [one] => Some(Error::denied(one)),
        [first, rest @ ..] => Some(Error::denied(format_args!(
            "{first}; and {} more refused",
            rest.len()
        ))),
    }
}
