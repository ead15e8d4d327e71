//! Transactions, tape records and job records, as bytes.

use core::ops::Range;

use crate::SIZE;

/// Bytes of a tape's record.
pub const RECORD: usize = 264;

/// A command with its three address bytes.
#[must_use]
pub fn at(code: u8, address: u32) -> Vec<u8> {
    let [_, high, middle, low] = address.to_be_bytes();
    vec![code, high, middle, low]
}

/// A page program.
#[must_use]
pub fn program(address: u32, data: &[u8]) -> Vec<u8> {
    [&at(0x02, address), data].concat()
}

/// A tape's record, zero-filled; bytes past the record's end are dropped.
#[must_use]
pub fn record(kind: u8, byte_3: u8, bytes: &[u8]) -> Vec<u8> {
    let mut record = vec![0; RECORD];
    let [high, low] = (bytes.len() as u16).to_be_bytes();
    record[..4].copy_from_slice(&[high, low, kind, byte_3]);
    for (place, &byte) in record[4..].iter_mut().zip(bytes) {
        *place = byte;
    }
    record
}

/// A transaction's record with no leftover bits and /WP high.
#[must_use]
pub fn sent(bytes: &[u8]) -> Vec<u8> {
    record(0, 8, bytes)
}

/// A finish event's record.
#[must_use]
pub fn finish() -> Vec<u8> {
    record(1, 0, &[])
}

/// A power cycle's record.
#[must_use]
pub fn power_cycle() -> Vec<u8> {
    record(2, 0, &[])
}

/// What a translator makes of one command: 06, the command, finish.
#[must_use]
pub fn done(command: &[u8]) -> Vec<u8> {
    [sent(&[0x06]), sent(command), finish()].concat()
}

fn step(kind: u8, byte_1: u8, words: [u32; 3]) -> Vec<u8> {
    let mut record = vec![kind, byte_1, 0, 0];
    record.extend(words.iter().flat_map(|word| word.to_be_bytes()));
    record
}

/// A job's erase: 0, 1, 2 for 4, 32, 64 KB, 3 for all.
#[must_use]
pub fn erase(which: u8, address: u32) -> Vec<u8> {
    step(1, which, [address, 0, 0])
}

/// A job's lay.
#[must_use]
pub fn lay(address: u32, length: u32, offset: u32) -> Vec<u8> {
    step(2, 0, [address, length, offset])
}

/// A job's guard.
#[must_use]
pub fn guard(setting: u8) -> Vec<u8> {
    step(3, setting, [0; 3])
}

/// The stretch of the array that a transaction is aimed at, and a page to
/// either side: what is compared after every call. None where it has no
/// address. It need not be exact, the whole array is compared every so often.
#[must_use]
pub fn aim(bytes: &[u8]) -> Option<Range<usize>> {
    let &[code, high, middle, low, ..] = bytes else {
        return match bytes {
            [0xC7 | 0x60] => Some(0..SIZE),
            _ => None,
        };
    };
    let address = u32::from_be_bytes([0, high, middle, low]) as usize % SIZE;
    let unit = match code {
        0x20 => 4_096,
        0x52 => 32_768,
        0xD8 => 65_536,
        _ => 256,
    };
    let start = address / unit * unit;
    Some(start.saturating_sub(256)..(start + unit + 256).min(SIZE))
}

/// Bytes for a report: all of a few, else the first and how many.
#[must_use]
pub fn hex(bytes: &[u8]) -> String {
    let shown = &bytes[..bytes.len().min(24)];
    let words: Vec<_> = shown.iter().map(|byte| format!("{byte:02X}")).collect();
    let more = if shown.len() < bytes.len() { " .." } else { "" };
    format!("[{}{more}] ({} bytes)", words.join(" "), bytes.len())
}

#[cfg(test)]
mod tests {
    use super::*;

    #[test]
    fn records_are_as_the_paper_has_them() {
        let tape = sent(&[0x9F, 0, 0]);
        assert_eq!(tape[..7], [0, 3, 0, 8, 0x9F, 0, 0]);
        assert_eq!(tape.len(), RECORD);
        assert_eq!(record(0, 0, &[1; 300])[..2], [1, 44]);
        assert_eq!(
            lay(0x1E_FFFF, 2, 7),
            [2, 0, 0, 0, 0, 0x1E, 0xFF, 0xFF, 0, 0, 0, 2, 0, 0, 0, 7]
        );
    }

    #[test]
    fn aims_hold_the_unit_and_its_surroundings() {
        assert_eq!(aim(&[0x06]), None);
        assert_eq!(aim(&[0xC7]), Some(0..SIZE));
        assert_eq!(aim(&at(0x20, 0x2345)), Some(0x1F00..0x3100));
        assert_eq!(aim(&at(0xD8, 0xFF_FFFF)), Some(0x1E_FF00..SIZE));
        assert_eq!(aim(&program(5, &[1])), Some(0..512));
    }
}
