//! A ledger played: its boards brought in, its tapes played, in one transaction.

use super::rows::{self, Board, Row, Rows};
use crate::bench::Bench;
use crate::bill::json;
use crate::bill::prices::Prices;
use crate::board::{checked, fresh};
use crate::error::{Error, told};
use crate::numbers::grouped;
use crate::play::refused;
use crate::pool::boards::{self, Board as Kept};
use crate::pool::{Asked, bills, months, plays, sectors, sound};
use crate::sha256::{hex, sha256};
use crate::told::Told;
use crate::{clock, files, month, progress, state_file};
use clap::Args;
use indicatif::ProgressBar;
use rusqlite::Connection;
use serde_json::{Value, json};
use std::borrow::Cow;
use std::path::{Path, PathBuf};
use tunebriar::SIZE;

/// How it is called.
#[derive(Debug, Args)]
#[command(after_help = "\
LEDGER is CSV, with commas, semicolons or tabs, and a header:
  department,board,tape          on boards of the pool
  department,array,state,tape    on chips in files, each a new board; the files
                                 stay as they are
A column sha256 is held against the tapes. Names are looked for in LEDGER's own
folder. A board's tapes are played in their order. A tape that its board has
played this month already, whatever its name, needs --repeats. Every line is looked at first;
a line that is wrong is named, and nothing is played. A tape that is refused is
kept with its refusal and bills nothing; the exit status is then 1.

With --month and --prices the month is opened first, and its bill is told. A pool
that is not there is made.")]
pub struct Import {
    /// The ledger
    ledger: PathBuf,
    /// Open this month first, as 2026-11
    #[arg(long, requires = "prices", value_parser = clock::month)]
    month: Option<String>,
    /// The month's prices
    #[arg(long, value_name = "FILE", requires = "month")]
    prices: Option<PathBuf>,
    /// Play a tape again that its board has played this month, here or before
    #[arg(long)]
    repeats: bool,
    /// Keep nothing, and exit 1, if some tape is refused
    #[arg(long)]
    strict: bool,
}

/// What an import has done so far.
#[derive(Default)]
struct Done {
    added: usize,
    refused: Vec<String>,
    bill: String,
    bill_json: Value,
}

impl Import {
    /// Plays the ledger.
    ///
    /// # Errors
    ///
    /// Bad lines; files; a board that cannot be played on; with `--strict` a
    /// refused tape; the pool.
    pub fn run(&self, pool: &Asked) -> Result<Told, Error> {
        let prices = self.prices.as_deref().map(Prices::read).transpose()?;
        let rows = rows::read(&self.ledger, self.repeats)?;
        let bar = progress::bar(rows.rows.len(), "tapes");
        let done = pool.open_or_create()?.write(|book, now| {
            let mut done = Done::default();
            if let (Some(month), Some(prices)) = (&self.month, &prices) {
                months::open(book, now, month, prices, false)?;
            }
            self.play(book, now, &rows, &mut done, &bar)?;
            if let Some(month) = &self.month {
                done.bill = month::bill(book, month)?;
                done.bill_json = bill_json(book, month)?;
            }
            Ok(done)
        });
        bar.finish_and_clear();
        Ok(self.told(&rows, &done?))
    }

    fn play(
        &self,
        book: &Connection,
        now: &str,
        rows: &Rows,
        done: &mut Done,
        bar: &ProgressBar,
    ) -> Result<(), Error> {
        let mut bench = Bench::new(book, now)?;
        let month = months::last(book)?.id;
        let first = bench.next();
        let mut of_board: Vec<Vec<usize>> = vec![Vec::new(); rows.boards.len()];
        for (place, row) in rows.rows.iter().enumerate() {
            of_board[row.board].push(place);
        }
        for (board, places) in rows.boards.iter().zip(of_board) {
            let kept = self.board(book, now, board, done)?;
            let mut before = plays::tapes(book, month, kept.id)?;
            bench.take(kept)?;
            for place in places {
                let (number, row) = (first + place as i64, &rows.rows[place]);
                let here = |error: Error| self.at(row.line, error);
                let tape = self.tape(row).map_err(here)?;
                let digest = sha256(&tape);
                let exported = exported(book, row, first, digest)?;
                let known = exported.or(before.insert(digest, number));
                if let (false, Some(known)) = (self.repeats, known) {
                    return Err(here(again(known, first, rows)));
                }
                self.row(&mut bench, number, row, &tape, done)?;
                bar.inc(1);
            }
            bench.keep()?;
        }
        // Told in the ledger's order, whatever board was first.
        done.refused.sort_by_key(|line| line_of(line));
        Ok(())
    }

    /// The board in the pool; one of files is brought in.
    fn board(
        &self,
        book: &Connection,
        now: &str,
        board: &Board,
        done: &mut Done,
    ) -> Result<Kept, Error> {
        let here = |error: Error| self.at(board.line, error);
        let Some((array, state_path)) = &board.files else {
            let kept = boards::find(book, &board.name).map_err(here)?;
            return match kept.department == board.department {
                true => Ok(kept),
                false => Err(here(Error::wrong(format_args!(
                    "the board '{}' is one of {}",
                    kept.name, kept.department
                )))),
            };
        };
        let state = state_file::read(state_path).map_err(here)?;
        let bytes = files::read_up_to(array, SIZE).map_err(here)?;
        let bytes = checked(bytes, state, array, state_path).map_err(here)?;
        let fresh = fresh(&board.name, &board.department, state, now).map_err(here)?;
        done.added += 1;
        boards::add(book, &fresh, &sectors::of(&bytes)).map_err(here)
    }

    /// A row's tape, which is the one that the ledger means.
    fn tape<'a>(&self, row: &'a Row) -> Result<Cow<'a, [u8]>, Error> {
        let tape = row.tape.bytes()?;
        match &row.sha256 {
            Some(digest) if !digest.eq_ignore_ascii_case(&hex(&sha256(&tape))) => Err(Error::file(
                row.tape.path(),
                "its bytes are not those of the ledger's sha256",
            )),
            _ => Ok(tape),
        }
    }

    fn row(
        &self,
        bench: &mut Bench,
        number: i64,
        row: &Row,
        tape: &[u8],
        done: &mut Done,
    ) -> Result<(), Error> {
        let here = |error: Error| self.at(row.line, error);
        if let Err(refusal) = bench.play_as(number, &row.name, tape).map_err(here)? {
            let words = format!("line {}: {}: {}", row.line, row.name, told(refusal));
            if self.strict {
                return Err(Error::denied(words).within(self.ledger.display()));
            }
            done.refused.push(words);
        }
        Ok(())
    }

    fn at(&self, line: u64, error: Error) -> Error {
        error.within(format_args!("{}: line {line}", self.ledger.display()))
    }

    fn told(&self, rows: &Rows, done: &Done) -> Told {
        let (all, turned) = (rows.rows.len(), done.refused.len());
        let ledger = shown(&self.ledger);
        let text = format!(
            "{ledger}: {} tapes played, {} refused, on {} boards, {} of them new\n{}",
            grouped(all - turned),
            grouped(turned),
            grouped(rows.boards.len()),
            grouped(done.added),
            done.bill,
        );
        let json = json!({
            "played": all - turned, "refused": done.refused, "boards": rows.boards.len(),
            "added": done.added, "bill": done.bill_json,
        });
        let mut told = Told::new(text, json);
        told.refused = refused(&done.refused).map(|error| error.within(ledger));
        told
    }
}

/// A tape that its board has played already, by this ledger or before it.
fn again(known: i64, first: i64, rows: &Rows) -> Error {
    let of_ledger = usize::try_from(known - first).ok();
    let of_ledger = of_ledger.and_then(|place| rows.rows.get(place));
    Error::wrong(match of_ledger {
        Some(row) => format!(
            "the same bytes as line {}; --repeats plays them again",
            row.line
        ),
        None => format!("this is play {known} of the pool; --repeats plays it again"),
    })
}

/// The play of this very pool that an exported ledger's row is.
fn exported(
    book: &Connection,
    row: &Row,
    first: i64,
    tape: plays::Digest,
) -> Result<Option<i64>, Error> {
    match row.number.filter(|number| *number < first) {
        Some(number) if plays::is_of(book, number, tape)? => Ok(Some(number)),
        _ => Ok(None),
    }
}

/// A month's bill for programs, as `month bill` tells it.
fn bill_json(book: &Connection, month: &str) -> Result<Value, Error> {
    let bill = json::render(&bills::bill(book, month)?, false).map_err(Error::wrong)?;
    let mut told: Value = serde_json::from_str(&bill).map_err(Error::wrong)?;
    told["notes"] = sound::notes(book, &months::find(book, month)?)?.into();
    Ok(told)
}

fn shown(path: &Path) -> String {
    crate::error::shown(path)
}

fn line_of(words: &str) -> u64 {
    let digits = words.trim_start_matches("line ").split(':').next();
    digits.and_then(|digits| digits.parse().ok()).unwrap_or(0)
}
