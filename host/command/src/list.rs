//! `tunebriar list`: a tape's records, as document 01 prints them or in full.

use crate::bench::Bench;
use crate::error::{Error, shown};
use crate::files;
use crate::pool::plays::LONGEST_TAPE;
use crate::pool::{Asked, boards};
use crate::told::Told;
use crate::words;
use clap::Args;
use serde_json::{Value, json};
use std::collections::HashMap;
use std::fmt::Write;
use std::path::PathBuf;
use tunebriar::{Read, Reader, Record, Refusal, Transaction, Verdict};

/// How it is called.
#[derive(Debug, Args)]
#[command(
    after_help = "A line per record: its index from 0, then T with command and length, F \
                        for a finish, P for a power cycle. As document 01 has it, a tape of more \
                        than 65,472 bytes is refused as 30, and a refused tape prints only \
                        'refused' with number and record."
)]
pub struct List {
    /// The tape
    tape: PathBuf,
    /// In full, and of any size: addresses, /WP and leftover bits
    #[arg(long)]
    long: bool,
    /// With --long: what each record's verdict would be on a board
    #[arg(long, requires = "long")]
    board: Option<String>,
}

/// The longest tape that document 01 lists.
const LONGEST: usize = 65_472;

type Verdicts = HashMap<u64, Verdict>;

impl List {
    /// Tells the lines.
    ///
    /// # Errors
    ///
    /// Refusals 30 and 31; files; the board's refusals.
    pub fn run(&self, pool: &Asked) -> Result<Told, Error> {
        let tape = match self.long {
            true => files::read(&self.tape, LONGEST_TAPE)?,
            false => files::read_up_to(&self.tape, LONGEST)?,
        };
        let verdicts = match &self.board {
            Some(board) => verdicts(pool, board, &tape)?,
            None => Verdicts::new(),
        };
        match self.lines(&tape, &verdicts) {
            Ok(told) => Ok(told),
            Err(refusal) => Ok(self.refused(&tape, refusal)),
        }
    }

    /// The lines of a tape, or its first fault. One byte too many is read of a
    /// tape that is too long, so that it is no whole records either: 30.
    fn lines(&self, tape: &[u8], verdicts: &Verdicts) -> Result<Told, Refusal> {
        let (mut text, mut all) = (String::new(), Vec::new());
        let mut reader = Reader::new(tape);
        loop {
            let place = reader.place();
            match reader.read() {
                Read::Record(record) => {
                    let verdict = verdicts.get(&place).copied();
                    match self.long {
                        true => text.push_str(&long(place, record, verdict)),
                        false => line(&mut text, place, record),
                    }
                    all.push(value(place, record, verdict));
                }
                Read::End => return Ok(Told::new(text, Value::from(all))),
                Read::Fault(refusal) => return Err(refusal),
            }
        }
    }

    fn refused(&self, tape: &[u8], refusal: Refusal) -> Told {
        let (number, index) = (refusal.number(), refusal.index());
        let json = crate::report::refusal_json(refusal);
        let mut told = Told::new(format!("refused {number} {index:04}\n"), json);
        told.refused = Some(match tape.len() > LONGEST && !self.long {
            true => {
                let why = "over 65,472 bytes, more than this listing takes; --long takes any size";
                Error::denied(format_args!(
                    "{}: refused {number}: {why}",
                    shown(&self.tape)
                ))
            }
            false => Error::refused(shown(&self.tape), refusal),
        });
        told
    }
}

/// What would become of each transaction on a board.
fn verdicts(pool: &Asked, board: &str, tape: &[u8]) -> Result<Verdicts, Error> {
    let mut verdicts = Verdicts::new();
    pool.open()?.read(|book| {
        let mut bench = Bench::new(book, "")?;
        bench.take(boards::find(book, board)?)?;
        let played = bench.chip().play_first(tape, u64::MAX, |heard| {
            verdicts.insert(heard.record, heard.verdict);
        });
        match played {
            // What the tape is refused for is told by the listing itself.
            Err(refusal) if !matches!(refusal.number(), 30 | 31) => {
                Err(Error::refused(format_args!("board {board}"), refusal))
            }
            _ => Ok(()),
        }
    })?;
    Ok(verdicts)
}

/// One record's line, as document 01 has it.
fn line(text: &mut String, place: u64, record: Record) {
    let _ = match record {
        Record::Finish => writeln!(text, "{place:04} F"),
        Record::PowerCycle => writeln!(text, "{place:04} P"),
        Record::Transaction(sent) => {
            let length = sent.bytes.len();
            match sent.bytes.first() {
                None => writeln!(text, "{place:04} T -- {length:03}"),
                Some(command) => writeln!(text, "{place:04} T {command:02X} {length:03}"),
            }
        }
    };
}

/// One record's line in full.
fn long(place: u64, record: Record, verdict: Option<Verdict>) -> String {
    let Record::Transaction(sent) = record else {
        let event = if record == Record::Finish {
            "finish"
        } else {
            "power cycle"
        };
        return format!("{place:04}  {event}\n");
    };
    let mut line = format!(
        "{place:04}  {}, {} bytes",
        words::sent(sent.bytes),
        sent.bytes.len()
    );
    if !sent.wp_high {
        line.push_str(", /WP low");
    }
    if sent.leftover > 0 {
        let _ = write!(line, ", {} leftover bits", sent.leftover);
    }
    if let Some(verdict) = verdict {
        let _ = write!(line, ": {}", words::verdict(verdict));
    }
    line.push('\n');
    line
}

fn value(place: u64, record: Record, verdict: Option<Verdict>) -> Value {
    let Record::Transaction(Transaction {
        bytes,
        leftover,
        wp_high,
    }) = record
    else {
        let event = if record == Record::Finish {
            "finish"
        } else {
            "power-cycle"
        };
        return json!({ "record": place, "kind": event });
    };
    json!({
        "record": place,
        "kind": "transaction",
        "command": bytes.first(),
        "address": words::address(bytes),
        "bytes": bytes.len(),
        "leftover": leftover,
        "wp_high": wp_high,
        "verdict": verdict.map(Verdict::number),
    })
}
