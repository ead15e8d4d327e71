//! `tunebriar tape`: a tape as text, for tapes that no job makes.

use crate::error::{Error, shown};
use crate::files;
use crate::lines::lines;
use crate::numbers::{grouped, hex, number, spaced};
use crate::output::Outputs;
use crate::told::Told;
use clap::Args;
use serde_json::json;
use std::path::{Path, PathBuf};
use tunebriar::{RECORD, Read, Reader, Record, Transaction, read};

/// How it is called.
#[derive(Debug, Args)]
#[command(after_help = "\
Each line of TEXT is a record:
  send 02 00 00 FE 11 22     a transaction, /WP high, no leftover bits
  send wp-low bits 3 05 00   the same with /WP low and 3 leftover bits
  finish
  power-cycle
Blank lines and what follows a # say nothing; a line that ends in \\ goes on.")]
pub struct Tape {
    /// The records as text
    text: PathBuf,
    /// The tape
    tape: PathBuf,
    /// Write TEXT from TAPE
    #[arg(long)]
    back: bool,
    /// Replace a file that is there
    #[arg(long)]
    force: bool,
}

/// The most bytes that a record holds.
pub const LONGEST: usize = 260;
/// The most bytes of a tape that is turned into text.
const LARGEST: usize = crate::pool::plays::LONGEST_TAPE;

impl Tape {
    /// Writes the tape, or its text.
    ///
    /// # Errors
    ///
    /// Refusals 30 and 31; files.
    pub fn run(&self) -> Result<Told, Error> {
        let (to, bytes, records) = match self.back {
            true => {
                let tape = files::read(&self.tape, LARGEST)?;
                let text = back(&self.tape, &tape)?;
                (&self.text, text.into_bytes(), tape.len() / RECORD)
            }
            false => {
                let tape = forth(&self.text)?;
                let records = tape.len() / RECORD;
                (&self.tape, tape, records)
            }
        };
        let mut outputs = Outputs::new(self.force);
        outputs.lay(to, bytes)?;
        let data = outputs.commit()?;
        let text = format!("{}: {} records\n", shown(to), grouped(records));
        Ok(Told::new(text, json!({ "records": records })).with_data(data))
    }
}

fn forth(path: &Path) -> Result<Vec<u8>, Error> {
    let mut tape = Vec::new();
    for (line, words) in lines(path, &files::text(path)?)? {
        let record = record(&words).map_err(|words| Error::line(path, line, words))?;
        if let Read::Fault(refusal) = read(&record, 0) {
            let place = format!("line {line}");
            return Err(Error::refused_at(path, &place, refusal));
        }
        tape.extend(record);
    }
    Ok(tape)
}

fn record(words: &[String]) -> Result<Vec<u8>, String> {
    let words: Vec<&str> = words.iter().map(String::as_str).collect();
    match words[..] {
        ["finish"] => Ok(laid(1, 0, &[])),
        ["power-cycle"] => Ok(laid(2, 0, &[])),
        ["send", ref rest @ ..] => sent(rest),
        _ => Err("this is no send, finish or power-cycle".to_string()),
    }
}

fn sent(words: &[&str]) -> Result<Vec<u8>, String> {
    let (wp, words) = match words {
        ["wp-low", rest @ ..] => (0, rest),
        _ => (8, words),
    };
    let (bits, words) = match words {
        ["bits", bits, rest @ ..] => (number(bits)?, rest),
        _ => (0, words),
    };
    if bits > 7 {
        return Err(format!("{bits} leftover bits are over 7"));
    }
    let bytes = hex(words.iter().copied())?;
    if bytes.len() > LONGEST {
        return Err(format!("{} bytes are over {LONGEST}", bytes.len()));
    }
    Ok(laid(0, wp + bits as u8, &bytes))
}

/// A record of 264 bytes: length, kind, bits and /WP, the bytes, zeros.
#[must_use]
pub fn laid(kind: u8, bits: u8, bytes: &[u8]) -> Vec<u8> {
    let mut record = vec![0; RECORD];
    record[..2].copy_from_slice(&(bytes.len() as u16).to_be_bytes());
    (record[2], record[3]) = (kind, bits);
    record[4..][..bytes.len()].copy_from_slice(bytes);
    record
}

fn back(path: &Path, tape: &[u8]) -> Result<String, Error> {
    let mut text = String::new();
    let mut reader = Reader::new(tape);
    loop {
        match reader.read() {
            Read::Record(Record::Transaction(sent)) => text.push_str(&send(sent)),
            Read::Record(Record::Finish) => text.push_str("finish\n"),
            Read::Record(Record::PowerCycle) => text.push_str("power-cycle\n"),
            Read::End => return Ok(text),
            Read::Fault(refusal) => return Err(Error::refused(shown(path), refusal)),
        }
    }
}

fn send(sent: Transaction) -> String {
    let wp = if sent.wp_high { "" } else { " wp-low" };
    let bits = match sent.leftover {
        0 => String::new(),
        bits => format!(" bits {bits}"),
    };
    let line = format!("send{wp}{bits} {}", spaced(sent.bytes));
    format!("{}\n", line.trim_end())
}
