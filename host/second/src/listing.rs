//! The listing program's output, over the tape reader.

use crate::tape::{self, FINISH, POWER_CYCLE};
use crate::{Record, read};

/// The longest tape the listing program takes: 248 records.
const LONGEST: usize = 65_472;

/// A line per record. A fault anywhere prints its own line and nothing else,
/// so the whole tape is looked at before the first line is made.
#[must_use]
pub fn listing(tape: &[u8]) -> Vec<u8> {
    let fault = if tape.len() > LONGEST {
        Some((30, 0))
    } else {
        tape::first_fault(tape)
    };
    match fault {
        Some((number, index)) => format!("refused {number} {index:04}\n").into_bytes(),
        None => lines(tape).into_bytes(),
    }
}

fn lines(tape: &[u8]) -> String {
    let records = tape::count(tape).unwrap_or(0);
    (0..records)
        .map(|index| format!("{index:04} {}\n", described(tape, &read(tape, index))))
        .collect()
}

fn described(tape: &[u8], record: &Record) -> String {
    match record.kind {
        FINISH => "F".to_string(),
        POWER_CYCLE => "P".to_string(),
        _ if record.length == 0 => "T -- 000".to_string(),
        _ => format!("T {:02X} {:03}", tape[record.start as usize], record.length),
    }
}
