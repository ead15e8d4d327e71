//! `tunebriar transact`: one bus transaction, or one event.

use crate::bench::Bench;
use crate::error::Error;
use crate::numbers::{hex, spaced};
use crate::pool::{Asked, boards};
use crate::tape::{LONGEST, laid};
use crate::told::Told;
use crate::{report, words};
use clap::{Args, ValueEnum};
use rusqlite::Connection;
use serde_json::{Value, json};
use tunebriar::{State, Verdict};

/// How it is called.
#[derive(Debug, Args)]
#[command(
    after_help = "In place of HEX: 'none' (no whole byte), 'finish', 'power-cycle'. What \
                        the chip ignores is served, and counted. It is kept in the book as a \
                        tape of one record, so it has at most 260 bytes.\n\n\
                        Example: tunebriar transact bench-1 02 00 00 FE 11 22"
)]
pub struct Transact {
    /// The board
    board: String,
    /// The bytes to send, two hex digits each
    #[arg(required = true, value_name = "HEX")]
    bytes: Vec<String>,
    /// The level of /WP
    #[arg(long, value_enum, default_value_t = Level::High)]
    wp: Level,
    /// Bits clocked in after the last whole byte
    #[arg(long, value_name = "N", default_value_t = 0)]
    #[arg(value_parser = clap::value_parser!(u8).range(0..=7))]
    bits: u8,
    /// Show it, and keep nothing
    #[arg(long)]
    dry_run: bool,
}

#[derive(Clone, Copy, Debug, PartialEq, Eq, ValueEnum)]
pub(crate) enum Level {
    High,
    Low,
}

/// What was heard from the chip.
struct Heard {
    number: i64,
    answer: Option<(Vec<u8>, Verdict)>,
    state: State,
}

impl Transact {
    /// Sends it, and shows what came of it.
    ///
    /// # Errors
    ///
    /// A board that cannot be played on; wrong usage; the pool.
    pub fn run(&self, pool: &Asked) -> Result<Told, Error> {
        let (name, tape) = self.tape()?;
        let mut pool = pool.open()?;
        let heard = match self.dry_run {
            true => pool.read(|book| self.sent(book, "", &name, &tape))?,
            false => pool.write(|book, now| self.sent(book, now, &name, &tape))?,
        };
        Ok(self.told(&heard))
    }

    /// A tape of one record, and its name in the book.
    fn tape(&self) -> Result<(String, Vec<u8>), Error> {
        let words: Vec<&str> = self.bytes.iter().map(String::as_str).collect();
        let plain = self.wp == Level::High && self.bits == 0;
        let bytes = match words[..] {
            ["finish"] if plain => return Ok(("finish".to_string(), laid(1, 0, &[]))),
            ["power-cycle"] if plain => return Ok(("power-cycle".to_string(), laid(2, 0, &[]))),
            ["finish" | "power-cycle"] => {
                return Err(Error::wrong("an event has no --wp low and no --bits"));
            }
            ["none"] => Vec::new(),
            _ => hex(words).map_err(Error::wrong)?,
        };
        if bytes.len() > LONGEST {
            let words = format!("{} bytes are over {LONGEST}", bytes.len());
            return Err(Error::wrong(words));
        }
        let high = if self.wp == Level::High { 8 } else { 0 };
        let name = format!("send {}", spaced(&bytes[..bytes.len().min(4)]));
        Ok((
            name.trim_end().to_string(),
            laid(0, high + self.bits, &bytes),
        ))
    }

    fn sent(&self, book: &Connection, now: &str, name: &str, tape: &[u8]) -> Result<Heard, Error> {
        let mut bench = Bench::new(book, now)?;
        bench.take(boards::find(book, &self.board)?)?;
        let number = bench.next();
        let mut answer = None;
        let came = bench.chip().play_first(tape, 1, |heard| {
            answer = Some((heard.out.to_vec(), heard.verdict));
        });
        if let Err(refusal) = &came {
            return Err(Error::refused(
                format_args!("board {}", self.board),
                *refusal,
            ));
        }
        if !self.dry_run {
            bench.write(number, name, tape, &came)?;
            bench.keep()?;
        }
        let state = bench.chip().state;
        Ok(Heard {
            number,
            answer,
            state,
        })
    }

    fn told(&self, heard: &Heard) -> Told {
        let state = report::state(heard.state);
        let mut json = json!({
            "board": self.board,
            "kept": !self.dry_run,
            "play": (!self.dry_run).then_some(heard.number),
            "after": report::state_json(heard.state),
        });
        let Some((out, verdict)) = &heard.answer else {
            return Told::new(state, json);
        };
        json["out"] = Value::from(spaced(out));
        json["verdict"] = Value::from(verdict.number());
        let (out, verdict) = (spaced(out), words::verdict(*verdict));
        Told::new(
            format!("out        {out}\nverdict    {verdict}\n{state}"),
            json,
        )
    }
}
