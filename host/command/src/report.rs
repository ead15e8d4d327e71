//! What plays came to, in words and as JSON.

use crate::error::told;
use crate::numbers::grouped;
use crate::pool::plays::Came;
use crate::sha256::{hex, sha256};
use crate::tally::{Asked, Ignored, Tally};
use crate::words;
use serde_json::{Value, json};
use std::fmt::Write;
use tunebriar::{Kind, Meter, RECORD, Reason, Refusal, State};

/// A tally, a line per command and per verdict.
#[must_use]
pub fn tally(tally: &Tally) -> String {
    let mut text = format!("carried out {}\n", grouped(tally.all_carried_out()));
    for (&code, &count) in &tally.carried_out {
        let kind = Kind::of(code).map_or("", words::kind);
        let _ = writeln!(text, "{:>9}  {code:02X} {kind}", grouped(count));
    }
    let _ = writeln!(text, "ignored {}", grouped(tally.ignored.len()));
    for (verdict, by_asked) in tally.by_verdict() {
        let parts: Vec<String> = by_asked
            .iter()
            .map(|(asked, count)| format!("{} {}", asked.words(), grouped(count)))
            .collect();
        let count: u64 = by_asked.values().sum();
        let (count, parts) = (grouped(count), parts.join(", "));
        let _ = writeln!(text, "{count:>9}  {}: {parts}", verdict_words(verdict));
    }
    let events = (grouped(tally.finishes), grouped(tally.power_cycles));
    let _ = writeln!(text, "finishes {}, power cycles {}", events.0, events.1);
    text
}

/// `14 not write enabled (WEL was 0)`.
#[must_use]
pub fn verdict_words(verdict: u32) -> String {
    let why = Reason::of(verdict).map_or("", words::reason);
    format!("{verdict} {why}")
}

/// Registers and meter, the last lines of what was played.
#[must_use]
pub fn state(state: State) -> String {
    let (registers, meter) = (words::registers(state.registers), words::meter(state.meter));
    format!("registers  {registers}\nmeter      {meter}\n")
}

/// The same for programs.
#[must_use]
pub fn state_json(state: State) -> Value {
    let registers = state.registers;
    json!({
        "status": registers.status,
        "awake": registers.awake,
        "setting": registers.setting(),
        "meter": meter_json(state.meter),
    })
}

/// The four counts for programs.
#[must_use]
pub fn meter_json(meter: Meter) -> Value {
    json!({
        "programs": meter.programs,
        "erases": meter.erases,
        "register_writes": meter.register_writes,
        "ignored": meter.ignored,
    })
}

/// A play in one line.
#[must_use]
pub fn line(number: i64, name: &str, tape: &[u8], came: &Came) -> String {
    match came {
        Ok(outcome) => {
            let records = grouped(outcome.tally.records());
            let rise = words::meter(outcome.rise);
            format!("play {number}: {name}: {records} records: {rise}\n")
        }
        Err(refusal) => {
            let bytes = grouped(tape.len());
            format!("play {number}: {name}: {bytes} bytes: {}\n", told(*refusal))
        }
    }
}

/// A play for programs.
#[must_use]
pub fn json(number: i64, name: &str, tape: &[u8], came: &Came) -> Value {
    let mut value = json!({
        "number": number,
        "tape": name,
        "sha256": hex(&sha256(tape)),
        "bytes": tape.len(),
        "records": tape.len() / RECORD,
    });
    match came {
        Ok(outcome) => {
            value["rise"] = meter_json(outcome.rise);
            value["ignored"] = ignored_json(&outcome.tally);
        }
        Err(refusal) => value["refusal"] = refusal_json(*refusal),
    }
    value
}

/// A refusal for programs.
#[must_use]
pub fn refusal_json(refusal: Refusal) -> Value {
    json!({ "number": refusal.number(), "record": refusal.index(), "words": refusal.words() })
}

fn ignored_json(tally: &Tally) -> Value {
    let lines = tally.by_verdict().into_iter().map(|(verdict, by_asked)| {
        let count = |asked| by_asked.get(&asked).copied().unwrap_or(0);
        json!({
            "verdict": verdict,
            "words": Reason::of(verdict).map_or("", words::reason),
            "programs": count(Asked::Program),
            "erases": count(Asked::Erase),
            "register_writes": count(Asked::RegisterWrite),
            "others": count(Asked::Other),
        })
    });
    lines.collect()
}

/// An ignored record in words; what was sent is looked up in the tape.
#[must_use]
pub fn ignored(tape: &[u8], one: &Ignored) -> String {
    format!(
        "{}: {}",
        words::sent(bytes(tape, one.record)),
        verdict_words(one.verdict)
    )
}

/// The bytes of a tape's transaction.
#[must_use]
pub fn bytes(tape: &[u8], record: u64) -> &[u8] {
    use tunebriar::{Read, Record, read};
    match read(tape, record) {
        Read::Record(Record::Transaction(sent)) => sent.bytes,
        _ => &[],
    }
}
