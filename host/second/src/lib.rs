//! A second, independent emulator, translator and tape reader for the billed
//! chip of document 01, to be held against the proved first one.
//!
//! It is built the other way round: not a function of a whole transaction but
//! a chip on a bus that hears one byte after another ([`transact`] and
//! [`replay`] clock it), registers as single flip-flops, and protection as the
//! sheet's printed table. Answers use document 01's numbers.
//!
//! Every number is judged at the width it is handed in with. A refusal changes
//! nothing that was lent and answers the registers and meter as handed in.

mod bus;
mod command;
mod counting;
mod geometry;
mod job;
mod listing;
mod meaning;
mod protect;
mod status;
mod tape;

pub use counting::count;
pub use job::{quote, translate};
pub use listing::listing;
pub use meaning::{meaning, meaning_on_registers};
pub use tape::read;

use bus::Chip;
use command::{Command, Effect};
use geometry::CHIP;
use status::Latches;

/// The only part number served.
const PART: u32 = 1;
/// The most bytes of one transaction.
const TRANSACTION_LIMIT: usize = 4_096;

/// The registers as the caller keeps them.
#[derive(Clone, Copy, Debug, Default, PartialEq, Eq)]
pub struct Regs {
    /// S15 to S0.
    pub status: u32,
    /// 1 awake, 0 asleep.
    pub awake: u32,
}

/// The four counts.
#[derive(Clone, Copy, Debug, Default, PartialEq, Eq)]
pub struct Meter {
    /// Accepted 02.
    pub programs: u32,
    /// Accepted erases.
    pub erases: u32,
    /// Accepted 01.
    pub register_writes: u32,
    /// Verdicts 10 to 16.
    pub ignored: u32,
}

/// The answer of a transaction or a replay.
#[derive(Clone, Copy, Debug, Default, PartialEq, Eq)]
pub struct Answer {
    /// 0, a verdict 10 to 16, or a refusal.
    pub number: u32,
    /// The first bad record's for 31, else 0.
    pub index: u64,
    /// The op code carried out (C7 for 60 too); 0 if none, and for a replay.
    pub code: u32,
    /// The registers afterwards.
    pub regs: Regs,
    /// The meter afterwards.
    pub meter: Meter,
}

/// The answer of a finish event or a power cycle.
#[derive(Clone, Copy, Debug, Default, PartialEq, Eq)]
pub struct Event {
    /// 0, 1 or 3.
    pub number: u32,
    /// Always 0.
    pub index: u64,
    /// The registers afterwards.
    pub regs: Regs,
}

/// The answer of a translation.
#[derive(Clone, Copy, Debug, Default, PartialEq, Eq)]
pub struct Tape {
    /// 0 or a refusal.
    pub number: u32,
    /// The first bad record's for 22 to 25, else 0.
    pub index: u64,
    /// Bytes of tape written; 0 on a refusal.
    pub length: u64,
}

/// The bill beforehand.
#[derive(Clone, Copy, Debug, Default, PartialEq, Eq)]
pub struct Bill {
    /// 0 or a refusal.
    pub number: u32,
    /// The first bad record's for 22 to 25, else 0.
    pub index: u64,
    /// The rise of programs.
    pub programs: u32,
    /// The rise of erases.
    pub erases: u32,
    /// The rise of register writes.
    pub register_writes: u32,
    /// Bytes of the tape.
    pub length: u64,
}

/// The answer of a read at a place of a tape.
#[derive(Clone, Copy, Debug, Default, PartialEq, Eq)]
pub struct Record {
    /// 0 transaction, 1 finish, 2 power cycle, 3 end, 4 fault.
    pub kind: u32,
    /// 30 or 31 at a fault, else 0.
    pub number: u32,
    /// Bytes of the transaction, else 0.
    pub length: u32,
    /// Leftover bits of the transaction, else 0.
    pub leftover: u32,
    /// 1 where the transaction holds /WP high, else 0.
    pub wp: u32,
    /// Where the transaction's bytes begin in the tape, else 0.
    pub start: u64,
    /// The place after a record; the same place at the end or a fault.
    pub next: u64,
}

/// One transaction: `bytes` clocked in, then `leftover` bits, then deselect at
/// the level `wp` of /WP (0 is low). Writes the first n bytes of `out`.
#[allow(
    clippy::too_many_arguments,
    reason = "the same arguments as the C interface it is compared with"
)]
pub fn transact(
    part: u32,
    regs: Regs,
    meter: Meter,
    leftover: u32,
    wp: u32,
    array: &mut [u8],
    out: &mut [u8],
    bytes: &[u8],
) -> Answer {
    let admitted = admit_chip(part, array.len(), regs).and_then(|latches| {
        admit_transaction(bytes.len(), leftover, out.len())?;
        admit_counts(meter, 1)?;
        Ok(latches)
    });
    let latches = match admitted {
        Ok(latches) => latches,
        Err(number) => return turned_away(number, 0, regs, meter),
    };
    let mut chip = Chip::new(latches, array);
    chip.select();
    for (driven, &sent) in out.iter_mut().zip(bytes) {
        *driven = chip.clock_byte(sent);
    }
    chip.clock_bits(leftover);
    let verdict = chip.deselect(wp != 0);
    Answer {
        number: verdict.err().unwrap_or(0),
        index: 0,
        code: verdict.map_or(0, |command| u32::from(command.code())),
        regs: chip.latches.regs(),
        meter: counted(meter, verdict),
    }
}

/// A finish event: what the chip was busy with is done.
#[must_use]
pub fn finish(part: u32, regs: Regs) -> Event {
    event(part, regs, Latches::finish)
}

/// A power cycle.
#[must_use]
pub fn power_cycle(part: u32, regs: Regs) -> Event {
    event(part, regs, Latches::power_cycle)
}

/// Plays a whole tape and drops the outputs.
pub fn replay(part: u32, regs: Regs, meter: Meter, array: &mut [u8], tape: &[u8]) -> Answer {
    replay_first(part, regs, meter, array, tape, u64::MAX)
}

/// Checks the whole tape as [`replay`] does, then plays its first `k` records,
/// or all where it has fewer.
pub fn replay_first(
    part: u32,
    regs: Regs,
    meter: Meter,
    array: &mut [u8],
    tape: &[u8],
    k: u64,
) -> Answer {
    let (latches, records) = match admit_replay(part, regs, meter, array.len(), tape) {
        Ok(admitted) => admitted,
        Err((number, index)) => return turned_away(number, index, regs, meter),
    };
    let mut chip = Chip::new(latches, array);
    let meter = (0..records.min(k)).fold(meter, |meter, place| {
        play(&mut chip, meter, tape, &read(tape, place))
    });
    Answer {
        number: 0,
        index: 0,
        code: 0,
        regs: chip.latches.regs(),
        meter,
    }
}

/// One record of a tape that was found good, and the meter after it.
fn play(chip: &mut Chip, meter: Meter, tape: &[u8], record: &Record) -> Meter {
    match record.kind {
        tape::FINISH => chip.latches.finish(),
        tape::POWER_CYCLE => chip.latches.power_cycle(),
        _ => {
            let bytes = &tape[record.start as usize..][..record.length as usize];
            chip.select();
            for &sent in bytes {
                chip.clock_byte(sent);
            }
            chip.clock_bits(record.leftover);
            return counted(meter, chip.deselect(record.wp != 0));
        }
    }
    meter
}

/// Refusals 1, 2, 3.
fn admit_chip(part: u32, array: usize, regs: Regs) -> Result<Latches, u32> {
    if part != PART {
        return Err(1);
    }
    if array != CHIP as usize {
        return Err(2);
    }
    Latches::well_formed(regs).ok_or(3)
}

/// Refusals 4, 5, 6.
fn admit_transaction(n: usize, leftover: u32, out: usize) -> Result<(), u32> {
    if n > TRANSACTION_LIMIT {
        return Err(4);
    }
    if leftover > 7 {
        return Err(5);
    }
    if out < n { Err(6) } else { Ok(()) }
}

/// Refusal 7: every count needs room for all that is asked, whether or not it
/// will rise.
fn admit_counts(meter: Meter, asked: u64) -> Result<(), u32> {
    let counts = [
        meter.programs,
        meter.erases,
        meter.register_writes,
        meter.ignored,
    ];
    let room = u64::from(u32::MAX - counts.into_iter().fold(0, u32::max));
    if asked > room { Err(7) } else { Ok(()) }
}

/// A replay's refusals with their index: 1, 2, 3, 30, 31, 7.
fn admit_replay(
    part: u32,
    regs: Regs,
    meter: Meter,
    array: usize,
    tape: &[u8],
) -> Result<(Latches, u64), (u32, u64)> {
    let unplaced = |number| (number, 0);
    let latches = admit_chip(part, array, regs).map_err(unplaced)?;
    if let Some(fault) = tape::first_fault(tape) {
        return Err(fault);
    }
    let records = tape::count(tape).unwrap_or(0);
    admit_counts(meter, records).map_err(unplaced)?;
    Ok((latches, records))
}

fn turned_away(number: u32, index: u64, regs: Regs, meter: Meter) -> Answer {
    Answer {
        number,
        index,
        code: 0,
        regs,
        meter,
    }
}

/// Refusals 1 and 3, then the change.
fn event(part: u32, regs: Regs, change: fn(&mut Latches)) -> Event {
    let answer = |number, regs| Event {
        number,
        index: 0,
        regs,
    };
    if part != PART {
        return answer(1, regs);
    }
    let Some(mut latches) = Latches::well_formed(regs) else {
        return answer(3, regs);
    };
    change(&mut latches);
    answer(0, latches.regs())
}

/// The meter after a verdict. Only an accepted 02, erase or 01 and an ignored
/// command count; 06 and the reads do not. Refusal 7 has made sure of room.
fn counted(mut meter: Meter, verdict: Result<&Command, u32>) -> Meter {
    match verdict.map(|command| command.effect) {
        Ok(Effect::Program) => meter.programs += 1,
        Ok(Effect::Erase(_)) => meter.erases += 1,
        Ok(Effect::WriteStatus) => meter.register_writes += 1,
        Ok(_) => {}
        Err(_) => meter.ignored += 1,
    }
    meter
}
