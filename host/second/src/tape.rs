//! Tapes: records of 264 bytes, read one place at a time.
//!
//! Reading looks at the record asked for and at nothing else, except that a
//! tape which is not whole records is at fault at every place.

use crate::Record;

/// Bytes of a record.
pub(crate) const RECORD: usize = 264;
/// Bytes of a record before the transaction's own.
const HEAD: usize = 4;
/// The longest transaction a record holds: 02, three address bytes, a page.
const LONGEST: usize = 260;

/// The kinds of an answer: three of records, then the end and a fault.
pub(crate) const TRANSACTION: u32 = 0;
pub(crate) const FINISH: u32 = 1;
pub(crate) const POWER_CYCLE: u32 = 2;
pub(crate) const END: u32 = 3;
pub(crate) const FAULT: u32 = 4;

/// The bit of byte 3 that says /WP is high.
const WP_HIGH: u8 = 8;

/// The record at `place` (counted from 0), the end, or the fault there.
///
/// Records are counted in 64 bits, and a place is only multiplied once it is
/// known to lie on the tape, so any place may be asked.
#[must_use]
pub fn read(tape: &[u8], place: u64) -> Record {
    let Some(records) = count(tape) else {
        return standstill(FAULT, 30, place);
    };
    if place >= records {
        return standstill(END, 0, place);
    }
    let at = place as usize * RECORD;
    let record = &tape[at..at + RECORD];
    if !is_good(record) {
        return standstill(FAULT, 31, place);
    }
    let next = place + 1;
    match u32::from(record[2]) {
        TRANSACTION => transaction(record, at, next),
        kind => Record {
            next,
            ..standstill(kind, 0, place)
        },
    }
}

/// How many records the tape has, where it is whole records.
pub(crate) fn count(tape: &[u8]) -> Option<u64> {
    tape.len()
        .is_multiple_of(RECORD)
        .then_some((tape.len() / RECORD) as u64)
}

/// The number and index of the first fault on the tape, if there is one.
pub(crate) fn first_fault(tape: &[u8]) -> Option<(u32, u64)> {
    let Some(records) = count(tape) else {
        return Some((30, 0));
    };
    (0..records)
        .map(|place| (read(tape, place).number, place))
        .find(|&(number, _)| number != 0)
}

/// A record's 264 bytes for a transaction with no leftover bits, /WP high.
pub(crate) fn transaction_record(bytes: &[u8]) -> [u8; RECORD] {
    let mut record = [0; RECORD];
    let length = u16::try_from(bytes.len()).expect("a transaction of a tape is short");
    record[..2].copy_from_slice(&length.to_be_bytes());
    record[3] = WP_HIGH;
    record[HEAD..HEAD + bytes.len()].copy_from_slice(bytes);
    record
}

/// A record's 264 bytes for a finish event.
pub(crate) fn finish_record() -> [u8; RECORD] {
    let mut record = [0; RECORD];
    record[2] = FINISH as u8;
    record
}

/// An answer that stays where it is and says nothing more.
fn standstill(kind: u32, number: u32, place: u64) -> Record {
    Record {
        kind,
        number,
        next: place,
        ..Record::default()
    }
}

fn length_of(record: &[u8]) -> u16 {
    u16::from_be_bytes([record[0], record[1]])
}

fn transaction(record: &[u8], at: usize, next: u64) -> Record {
    Record {
        kind: TRANSACTION,
        number: 0,
        length: u32::from(length_of(record)),
        leftover: u32::from(record[3] & 7),
        wp: u32::from(record[3] & WP_HIGH != 0),
        start: (at + HEAD) as u64,
        next,
    }
}

/// Whether refusal 31 is not due.
fn is_good(record: &[u8]) -> bool {
    let zero = |bytes: &[u8]| bytes.iter().all(|&byte| byte == 0);
    match record[2] {
        0 => {
            let length = usize::from(length_of(record));
            length <= LONGEST && record[3] <= 15 && zero(&record[HEAD + length..])
        }
        1 | 2 => zero(&record[..2]) && zero(&record[3..]),
        _ => false,
    }
}
