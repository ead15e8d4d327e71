//! Jobs: sixteen-byte records, checked step by step, translated into tapes
//! and billed beforehand.

use crate::geometry::{CHIP, PAGE, Span, Unit};
use crate::{Bill, PART, Tape, protect, tape};

const RECORD: usize = 16;
const MOST_RECORDS: usize = 64;
const PAYLOAD_LIMIT: usize = 65_536;
const LAY_LIMIT: u32 = 4_096;
const HIGHEST_SETTING: u32 = 31;
/// Records of a tape for each thing done: 06, the command, finish.
const RECORDS_EACH: u64 = 3;

/// One record of a job, read but not yet judged against chip and payload.
#[derive(Clone, Copy, Debug, PartialEq, Eq)]
pub(crate) enum Step {
    Erase { unit: Unit, address: u32 },
    Lay(Lay),
    Guard { setting: u8 },
}

/// Payload bytes to be laid over the array.
#[derive(Clone, Copy, Debug, PartialEq, Eq)]
pub(crate) struct Lay {
    pub(crate) address: u32,
    pub(crate) length: u32,
    /// Where the bytes begin in the payload.
    pub(crate) offset: u32,
}

/// Why a job is turned away: the number, and the bad record's index for 22 to
/// 25, else 0.
#[derive(Clone, Copy, Debug, PartialEq, Eq)]
pub(crate) struct TurnedAway {
    number: u32,
    index: u64,
}

/// Translates `job` into `tape`, which is touched only on success and only as
/// far as the tape's own length.
#[must_use]
pub fn translate(part: u32, setting: u32, job: &[u8], payload: &[u8], tape: &mut [u8]) -> Tape {
    let refused = |number, index| Tape {
        number,
        index,
        length: 0,
    };
    let steps = match accepted(part, setting, job, payload) {
        Ok(steps) => steps,
        Err(TurnedAway { number, index }) => return refused(number, index),
    };
    let written = write_tape(&steps, payload);
    let Some(room) = tape.get_mut(..written.len()) else {
        return refused(26, 0);
    };
    room.copy_from_slice(&written);
    Tape {
        number: 0,
        index: 0,
        length: written.len() as u64,
    }
}

/// The bill beforehand, from the job's own figures and without writing a
/// tape: what the counts will rise by, and how long the tape will be.
#[must_use]
pub fn quote(part: u32, setting: u32, job: &[u8], payload: &[u8]) -> Bill {
    match accepted(part, setting, job, payload) {
        Ok(steps) => bill(&steps),
        Err(TurnedAway { number, index }) => Bill {
            number,
            index,
            ..Bill::default()
        },
    }
}

/// The job's steps, where none of 1 and 20 to 25 is due.
pub(crate) fn accepted(
    part: u32,
    setting: u32,
    job: &[u8],
    payload: &[u8],
) -> Result<Vec<Step>, TurnedAway> {
    let whole = |number| TurnedAway { number, index: 0 };
    if part != PART {
        return Err(whole(1));
    }
    let (records, rest) = job.as_chunks::<RECORD>();
    if !rest.is_empty() || records.len() > MOST_RECORDS || payload.len() > PAYLOAD_LIMIT {
        return Err(whole(20));
    }
    match u8::try_from(setting) {
        Ok(start) if setting <= HIGHEST_SETTING => judged(start, records, payload.len()),
        _ => Err(whole(21)),
    }
}

/// Judges step after step, each under the setting that the guards before it
/// have left.
fn judged(start: u8, records: &[[u8; RECORD]], payload: usize) -> Result<Vec<Step>, TurnedAway> {
    let mut setting = start;
    let mut steps = Vec::with_capacity(records.len());
    for (index, record) in (0..).zip(records) {
        let step =
            judge(setting, record, payload).map_err(|number| TurnedAway { number, index })?;
        if let Step::Guard { setting: next } = step {
            setting = next;
        }
        steps.push(step);
    }
    Ok(steps)
}

/// One step: 22, 23, 24, 25 in this order.
fn judge(setting: u8, record: &[u8; RECORD], payload: usize) -> Result<Step, u32> {
    let step = parsed(record).ok_or(22u32)?;
    let Some(span) = reached(step).map_err(|OffChip| 23u32)? else {
        return Ok(step);
    };
    if let Step::Lay(lay) = step
        && u64::from(lay.offset) + u64::from(lay.length) > payload as u64
    {
        return Err(24);
    }
    if protect::touches(protect::bits_of(setting), span) {
        return Err(25);
    }
    Ok(step)
}

/// The record by its byte rules; nothing where one is broken.
fn parsed(record: &[u8; RECORD]) -> Option<Step> {
    let word = |at: usize| u32::from_be_bytes([0, 1, 2, 3].map(|k| record[at + k]));
    let zero_from = |at: usize| record[at..].iter().all(|&byte| byte == 0);
    if record[2] != 0 || record[3] != 0 {
        return None;
    }
    match (record[0], record[1]) {
        (1, which) if zero_from(8) => Some(Step::Erase {
            unit: unit(which)?,
            address: word(4),
        }),
        (2, 0) => Some(Step::Lay(Lay {
            address: word(4),
            length: word(8),
            offset: word(12),
        })),
        (3, setting) if u32::from(setting) <= HIGHEST_SETTING && zero_from(4) => {
            Some(Step::Guard { setting })
        }
        _ => None,
    }
}

fn unit(which: u8) -> Option<Unit> {
    [Unit::Sector, Unit::HalfBlock, Unit::Block, Unit::Chip]
        .get(usize::from(which))
        .copied()
}

/// Refusal 23: some figure leads off the chip or is out of bounds.
struct OffChip;

/// The bytes a step reaches; a guard reaches none.
fn reached(step: Step) -> Result<Option<Span>, OffChip> {
    match step {
        Step::Guard { .. } => Ok(None),
        Step::Erase { unit, address } => erased(unit, address).map(Some),
        Step::Lay(lay) => laid(lay).map(Some),
    }
}

fn erased(unit: Unit, address: u32) -> Result<Span, OffChip> {
    if address >= CHIP || (unit == Unit::Chip && address != 0) {
        return Err(OffChip);
    }
    Ok(unit.holding(address))
}

fn laid(lay: Lay) -> Result<Span, OffChip> {
    let end = u64::from(lay.address) + u64::from(lay.length);
    if lay.address >= CHIP || !(1..=LAY_LIMIT).contains(&lay.length) || end > u64::from(CHIP) {
        return Err(OffChip);
    }
    Ok(Span {
        first: lay.address,
        last: lay.address + (lay.length - 1),
    })
}

/// How many pages a lay touches, by the paper's formula.
fn pages(lay: Lay) -> u32 {
    (lay.address + lay.length - 1) / PAGE - lay.address / PAGE + 1
}

fn bill(steps: &[Step]) -> Bill {
    let mut bill = Bill::default();
    for &step in steps {
        match step {
            Step::Erase { .. } => bill.erases += 1,
            Step::Lay(lay) => bill.programs += pages(lay),
            Step::Guard { .. } => bill.register_writes += 1,
        }
    }
    let things =
        u64::from(bill.programs) + u64::from(bill.erases) + u64::from(bill.register_writes);
    bill.length = things * RECORDS_EACH * tape::RECORD as u64;
    bill
}

/// The whole tape of an accepted job.
fn write_tape(steps: &[Step], payload: &[u8]) -> Vec<u8> {
    let mut tape = Vec::new();
    for &step in steps {
        match step {
            Step::Erase { unit, address } => write_done(&mut tape, &erase_bytes(unit, address)),
            Step::Lay(lay) => write_lay(&mut tape, lay, payload),
            Step::Guard { setting } => write_done(&mut tape, &[0x01, 4 * setting, 0x00]),
        }
    }
    tape
}

/// One thing done: 06, the command, finish.
fn write_done(tape: &mut Vec<u8>, command: &[u8]) {
    tape.extend(tape::transaction_record(&[0x06]));
    tape.extend(tape::transaction_record(command));
    tape.extend(tape::finish_record());
}

/// An erase's bytes; the address goes out as the job has it, not rounded.
fn erase_bytes(unit: Unit, address: u32) -> Vec<u8> {
    let code = match unit {
        Unit::Sector => 0x20,
        Unit::HalfBlock => 0x52,
        Unit::Block => 0xD8,
        Unit::Chip => return vec![0xC7],
    };
    addressed(code, address)
}

/// Page after page, since a program that ran over a page's end would wrap.
fn write_lay(tape: &mut Vec<u8>, lay: Lay, payload: &[u8]) {
    let mut data = &payload[lay.offset as usize..][..lay.length as usize];
    let mut address = lay.address;
    while !data.is_empty() {
        let left_in_page = (PAGE - address % PAGE) as usize;
        let (now, later) = data.split_at(left_in_page.min(data.len()));
        let mut command = addressed(0x02, address);
        command.extend_from_slice(now);
        write_done(tape, &command);
        address += now.len() as u32;
        data = later;
    }
}

/// A command and its three address bytes, high first.
fn addressed(code: u8, address: u32) -> Vec<u8> {
    let [_, high, middle, low] = address.to_be_bytes();
    vec![code, high, middle, low]
}
