//! Calls as they are made of both emulators, and how either one's numbers are
//! told in the other's types.

use core::fmt;

use tunebriar::ffi::{self, Numbers};

use crate::SIZE;
use crate::bytes::{RECORD, hex};
use crate::reached::Entry;

/// What a caller keeps.
#[derive(Clone, Copy, Debug, Default, PartialEq, Eq)]
pub struct Kept {
    /// The registers.
    pub regs: ffi::Regs,
    /// The meter.
    pub meter: ffi::Meter,
}

impl Kept {
    /// Awake, with this status, and an empty meter.
    #[must_use]
    pub fn awake(status: u32) -> Kept {
        Kept {
            regs: ffi::Regs { status, awake: 1 },
            meter: ffi::Meter::default(),
        }
    }
}

impl From<second::Answer> for Kept {
    fn from(answer: second::Answer) -> Kept {
        Kept {
            regs: ffi::Regs {
                status: answer.regs.status,
                awake: answer.regs.awake,
            },
            meter: lent_meter(answer.meter),
        }
    }
}

/// A transaction, with the lengths of what is lent.
#[derive(Clone, Debug)]
pub struct Call {
    /// All that is a number.
    pub numbers: Numbers,
    /// The bytes sent.
    pub bytes: Vec<u8>,
    /// The length of the array lent.
    pub array: usize,
    /// The length of the output lent.
    pub out: usize,
}

impl Call {
    /// Part 1, no leftover bits, /WP high, an output of just the right length.
    #[must_use]
    pub fn new(kept: Kept, bytes: &[u8]) -> Call {
        let numbers = Numbers {
            part: 1,
            regs: kept.regs,
            meter: kept.meter,
            leftover: 0,
            wp: 1,
        };
        Call {
            numbers,
            bytes: bytes.to_vec(),
            array: SIZE,
            out: bytes.len(),
        }
    }
}

impl fmt::Display for Call {
    fn fmt(&self, f: &mut fmt::Formatter<'_>) -> fmt::Result {
        let (numbers, bytes) = (self.numbers, hex(&self.bytes));
        let (array, out) = (self.array, self.out);
        write!(
            f,
            "transaction {bytes} {numbers:?}, array {array}, out {out}"
        )
    }
}

/// A meter by itself, and what it is brought up to date by.
#[derive(Clone, Copy, Debug)]
pub struct Counting {
    /// The part number.
    pub part: u32,
    /// The meter.
    pub meter: ffi::Meter,
    /// What a transaction answered.
    pub number: u32,
    /// The first byte that it was sent.
    pub op: u32,
}

impl fmt::Display for Counting {
    fn fmt(&self, f: &mut fmt::Formatter<'_>) -> fmt::Result {
        let (part, number, op, meter) = (self.part, self.number, self.op, self.meter);
        write!(f, "count part {part} number {number} op {op:02X} {meter:?}")
    }
}

/// A replay, whole or of the first k records.
#[derive(Clone, Copy, Debug)]
pub struct Playing<'a> {
    /// The part number.
    pub part: u32,
    /// Registers and meter.
    pub kept: Kept,
    /// The length of the array lent.
    pub array: usize,
    /// The tape.
    pub tape: &'a [u8],
    /// For `tb_replay_first`; without it, `tb_replay`.
    pub k: Option<u64>,
}

impl<'a> Playing<'a> {
    /// The whole tape, on part 1.
    #[must_use]
    pub fn new(kept: Kept, tape: &'a [u8]) -> Playing<'a> {
        Playing {
            part: 1,
            kept,
            array: SIZE,
            tape,
            k: None,
        }
    }

    /// Which entry is called.
    #[must_use]
    pub fn entry(&self) -> Entry {
        match self.k {
            Some(_) => Entry::ReplayFirst,
            None => Entry::Replay,
        }
    }
}

impl fmt::Display for Playing<'_> {
    fn fmt(&self, f: &mut fmt::Formatter<'_>) -> fmt::Result {
        let (kept, k, part, array) = (self.kept, self.k, self.part, self.array);
        write!(f, "replay k {k:?} part {part} {kept:?} array {array}")?;
        let records = self.tape.chunks(RECORD).take(12);
        records
            .into_iter()
            .try_for_each(|record| write!(f, "\n    {}", hex(record)))
    }
}

/// A job with its payload, and the length of the tape lent.
#[derive(Clone, Debug)]
pub struct Job {
    /// The part number.
    pub part: u32,
    /// The start setting.
    pub setting: u32,
    /// Records of sixteen bytes, or not.
    pub steps: Vec<u8>,
    /// The payload.
    pub payload: Vec<u8>,
    /// The length of the tape lent.
    pub tape: usize,
}

impl fmt::Display for Job {
    fn fmt(&self, f: &mut fmt::Formatter<'_>) -> fmt::Result {
        let (part, setting, tape) = (self.part, self.setting, self.tape);
        let payload = hex(&self.payload);
        write!(
            f,
            "job part {part} setting {setting} tape {tape} payload {payload}"
        )?;
        let steps = self.steps.chunks(16).take(65);
        steps
            .into_iter()
            .try_for_each(|step| write!(f, "\n    {}", hex(step)))
    }
}

/// The registers as the second has them.
#[must_use]
pub fn regs_of(regs: ffi::Regs) -> second::Regs {
    second::Regs {
        status: regs.status,
        awake: regs.awake,
    }
}

/// The meter as the second has it.
#[must_use]
pub fn meter_of(meter: ffi::Meter) -> second::Meter {
    second::Meter {
        programs: meter.programs,
        erases: meter.erases,
        register_writes: meter.register_writes,
        ignored: meter.ignored,
    }
}

/// The second's meter as it is lent to the first.
pub(crate) fn lent_meter(meter: second::Meter) -> ffi::Meter {
    ffi::Meter {
        programs: meter.programs,
        erases: meter.erases,
        register_writes: meter.register_writes,
        ignored: meter.ignored,
    }
}

pub(crate) fn record_of(record: ffi::Record) -> second::Record {
    second::Record {
        kind: record.kind,
        number: record.number,
        length: record.length,
        leftover: record.leftover,
        wp: record.wp,
        start: record.start,
        next: record.next,
    }
}

#[cfg(feature = "jobs")]
pub(crate) fn bill_of(bill: ffi::Bill) -> second::Bill {
    second::Bill {
        number: bill.number,
        index: bill.index,
        programs: bill.programs,
        erases: bill.erases,
        register_writes: bill.register_writes,
        length: bill.length,
    }
}
