//! Random transactions, registers, meters and tapes: sensible ones that get far
//! into the chip, and hostile ones.

use tunebriar::ffi::{Meter, Regs};

use crate::bytes::{RECORD, at, finish, power_cycle, record};
use crate::edges::OTHER_PARTS;
use crate::rng::Rng;
use crate::{FULL, SIZE};

/// Bytes, leftover bits and the level of /WP.
#[derive(Clone, Debug)]
pub struct Sent {
    /// The bytes.
    pub bytes: Vec<u8>,
    /// The leftover bits.
    pub leftover: u32,
    /// The level of /WP.
    pub wp: u32,
}

/// The paper's codes, without the two that erase all: they would leave little
/// else to be seen, so they are sent now and then.
const CODES: [u8; 20] = [
    0x06, 0x04, 0x05, 0x35, 0x01, 0x03, 0x0B, 0x02, 0x02, 0x02, 0x20, 0x20, 0x52, 0xD8, 0xB9, 0xAB,
    0x90, 0x9F, 0x03, 0x01,
];

/// Where protected areas, units and the chip itself begin or end.
const BORDERS: [u32; 20] = [
    0x00_0000, 0x00_1000, 0x00_2000, 0x00_4000, 0x00_8000, 0x01_0000, 0x02_0000, 0x04_0000,
    0x08_0000, 0x10_0000, 0x18_0000, 0x1C_0000, 0x1E_0000, 0x1F_0000, 0x1F_8000, 0x1F_C000,
    0x1F_E000, 0x1F_F000, 0x1F_FF00, 0x20_0000,
];

/// An address on the chip, as often as not near a border.
pub fn address(rng: &mut Rng) -> u32 {
    let chosen = match rng.below(4) {
        0 => rng.pick(&BORDERS),
        1 => rng
            .pick(&BORDERS)
            .wrapping_add(rng.under(600))
            .wrapping_sub(300),
        _ => rng.word(),
    };
    chosen % SIZE as u32
}

/// The same, with three more bits that the chip does not look at, now and then.
fn sent_address(rng: &mut Rng) -> u32 {
    let past = if rng.one_in(4) { rng.under(8) << 21 } else { 0 };
    address(rng) | past
}

/// A code that means something to a chip with these registers.
fn code(rng: &mut Rng, regs: Regs) -> u8 {
    let (busy, wel) = (regs.status & 1 == 1, regs.status & 2 == 2);
    if rng.one_in(24) {
        return rng.next() as u8;
    }
    if regs.awake == 0 && !rng.one_in(3) {
        return 0xAB;
    }
    if busy && rng.one_in(3) {
        return rng.pick(&[0x05, 0x35]);
    }
    if !wel && rng.one_in(3) {
        return 0x06;
    }
    if rng.one_in(500) {
        return rng.pick(&[0xC7, 0x60]);
    }
    rng.pick(&CODES)
}

/// A byte count that fits the code, or now and then one that does not.
fn count(rng: &mut Rng, code: u8, most: usize) -> usize {
    if rng.one_in(16) {
        return rng.below(10).min(most);
    }
    let fitting = match code {
        0x06 | 0x04 | 0xC7 | 0x60 | 0xB9 => 1,
        0x01 => rng.pick(&[2, 3]),
        0x20 | 0x52 | 0xD8 => 4,
        0x02 => 4 + data(rng),
        0x05 | 0x35 | 0x9F | 0xAB => 1 + rng.below(9),
        _ => 4 + data(rng),
    };
    fitting.min(most)
}

/// So many bytes of data; seldom more than a page.
fn data(rng: &mut Rng) -> usize {
    match rng.below(40) {
        0 => 4_092,
        1 => rng.below(4_093),
        2..6 => 256 + rng.below(400),
        6..12 => 256,
        12..24 => 1 + rng.below(256),
        _ => 1 + rng.below(8),
    }
}

/// A transaction that may well be carried out by a chip with these registers.
pub fn sensible(rng: &mut Rng, regs: Regs, most: usize) -> Sent {
    let code = code(rng, regs);
    let n = count(rng, code, most);
    let mut bytes = at(code, sent_address(rng));
    if code == 0x01 {
        tame(rng, &mut bytes);
    }
    bytes.resize(n.max(4), 0);
    rng.fill(&mut bytes[4..]);
    bytes.truncate(n);
    let leftover = if rng.one_in(12) { rng.under(8) } else { 0 };
    let wp = u32::from(!rng.one_in(4));
    Sent {
        bytes,
        leftover,
        wp,
    }
}

/// A status write that mostly locks nothing and protects little, or nothing
/// else would be seen after it.
fn tame(rng: &mut Rng, bytes: &mut [u8]) {
    bytes[1] = rng.next() as u8 & rng.pick(&[0xFF, 0x7F, 0x64, 0x64, 0x2C]);
    bytes[2] = rng.pick(&[0, 0, 0, 0, 0, 1, 2, 3, 0xFC]);
}

/// Any bytes of any length up to a little more than is served.
pub fn wild(rng: &mut Rng) -> Sent {
    let n = match rng.below(8) {
        0 => rng.pick(&[4_095, 4_096, 4_097, 4_098, 5_000]),
        1 => rng.below(4_200),
        2 => rng.below(300),
        _ => rng.below(9),
    };
    let mut bytes = rng.bytes(n);
    if n > 0 && !rng.one_in(4) {
        bytes[0] = rng.pick(&CODES);
    }
    Sent {
        bytes,
        leftover: wild_leftover(rng),
        wp: rng.pick(&[0, 0, 1, 1, 2, 256, 65_536, u32::MAX]),
    }
}

fn wild_leftover(rng: &mut Rng) -> u32 {
    match rng.below(8) {
        0 => rng.pick(&[8, 255, 256, 257, 65_536, u32::MAX]),
        1 | 2 => rng.under(8),
        _ => 0,
    }
}

/// A part number, now and then another than 1.
pub fn part(rng: &mut Rng, others: usize) -> u32 {
    if rng.one_in(others) {
        return rng.pick(&OTHER_PARTS);
    }
    1
}

/// Registers that are well formed; protected or locked less often than not.
pub fn registers(rng: &mut Rng) -> Regs {
    let upper = rng.pick(&[0, 0, 0x0380, 0x007C, 0x002C, 0x03FC]);
    let (low, awake) = rng.pick(&[(0, 1), (2, 1), (2, 1), (2, 1), (3, 1), (0, 0), (2, 0)]);
    Regs {
        status: rng.word() & upper | low,
        awake,
    }
}

/// Registers as they may come from anybody.
pub fn wild_registers(rng: &mut Rng) -> Regs {
    let status = match rng.below(4) {
        0 => rng.word(),
        1 => rng.word() & 0xFFFF,
        2 => 1 << rng.under(32),
        _ => rng.word() & 0x03FF,
    };
    let awake = rng.pick(&[0, 1, 1, 1, 2, 256, 257, u32::MAX]);
    Regs { status, awake }
}

/// A meter: small, near the top, full, or anything.
pub fn meter(rng: &mut Rng) -> Meter {
    let style = rng.below(6);
    let mut count = || match style {
        0 => FULL - rng.under(4),
        1 => rng.word(),
        2 if rng.one_in(4) => FULL,
        _ => rng.under(1_000),
    };
    Meter {
        programs: count(),
        erases: count(),
        register_writes: count(),
        ignored: count(),
    }
}

/// A tape of `records` good records.
pub fn tape(rng: &mut Rng, records: usize) -> Vec<u8> {
    let mut tape = Vec::with_capacity(records * RECORD);
    // What the records before may have left of the registers; a guess will do.
    let mut guess = registers(rng);
    while tape.len() < records * RECORD {
        let next = match rng.below(16) {
            0 => power_cycle(),
            1..6 => finish(),
            _ => transaction(rng, guess),
        };
        guess.status = guess.status & !3 | rng.pick(&[0, 2, 2, 3]);
        guess.awake = u32::from(!rng.one_in(12));
        tape.extend(next);
    }
    tape
}

fn transaction(rng: &mut Rng, guess: Regs) -> Vec<u8> {
    let sent = sensible(rng, guess, 260);
    let high = if sent.wp == 0 { 0 } else { 8 };
    record(0, sent.leftover as u8 | high, &sent.bytes)
}

/// Spoils a tape in one place, in a way that is often but not always a fault.
pub fn damage(rng: &mut Rng, tape: &mut Vec<u8>) {
    if tape.is_empty() || rng.one_in(12) {
        let more = 1 + rng.below(RECORD);
        let bytes = rng.bytes(more);
        tape.extend(bytes);
        return;
    }
    let start = rng.below(tape.len() / RECORD + 1) * RECORD;
    let start = start.min(tape.len().saturating_sub(RECORD));
    let mut put = |at: usize, byte: u8| {
        if let Some(place) = tape.get_mut(start + at) {
            *place = byte;
        }
    };
    match rng.below(8) {
        0 => put(0, rng.next() as u8),
        1 => put(1, rng.next() as u8),
        2 => put(2, rng.pick(&[0, 1, 2, 3, 4, 128, 255])),
        3 => put(3, rng.pick(&[7, 8, 15, 16, 17, 32, 255])),
        4 => put(RECORD - 1, 1 << rng.below(8)),
        5 => put(4 + rng.below(260), 1 << rng.below(8)),
        6 => put(rng.below(RECORD), rng.next() as u8),
        _ => {
            let cut = rng.below(tape.len());
            tape.truncate(cut);
        }
    }
}

#[cfg(test)]
mod tests {
    use super::*;

    #[test]
    fn an_undamaged_tape_is_good() {
        let mut rng = Rng::new(1, "tape", 0);
        for records in 0..200 {
            let tape = tape(&mut rng, records);
            assert_eq!(tape.len(), records * RECORD);
            assert!((0..records as u64).all(|place| second::read(&tape, place).kind < 3));
        }
    }

    #[test]
    fn a_damaged_tape_is_often_bad() {
        let mut rng = Rng::new(1, "damage", 0);
        let mut numbers = [0; 32];
        for _ in 0..2_000 {
            let mut tape = tape(&mut rng, 3);
            damage(&mut rng, &mut tape);
            let places = 0..3;
            let number = places.map(|place| second::read(&tape, place).number).max();
            numbers[number.unwrap_or(0) as usize] += 1;
        }
        assert!(
            numbers[0] > 100 && numbers[30] > 100 && numbers[31] > 500,
            "{numbers:?}"
        );
    }

    #[test]
    fn well_formed_registers_are_well_formed() {
        let mut rng = Rng::new(1, "registers", 0);
        for _ in 0..10_000 {
            let Regs { status, awake } = registers(&mut rng);
            let regs = second::Regs { status, awake };
            assert_eq!(second::finish(1, regs).number, 0);
        }
    }
}
