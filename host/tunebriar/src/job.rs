//! Jobs: translated into tapes, and billed beforehand.

use crate::{Part, Refusal, ffi};

/// What one erase clears.
#[derive(Clone, Copy, Debug, PartialEq, Eq)]
pub enum Unit {
    /// 4 KB.
    Sector = 0,
    /// 32 KB.
    HalfBlock = 1,
    /// 64 KB.
    Block = 2,
    /// Everything; the address is 0.
    All = 3,
}

/// One step of a job.
///
/// ```
/// use tunebriar::Step;
///
/// let lay = Step::Lay { address: 0xFE, length: 4, offset: 0 };
/// assert_eq!(lay.record(), [2, 0, 0, 0, 0, 0, 0, 0xFE, 0, 0, 0, 4, 0, 0, 0, 0]);
/// ```
#[derive(Clone, Copy, Debug, PartialEq, Eq)]
pub enum Step {
    /// The unit that holds the address becomes FF.
    Erase {
        /// How much.
        unit: Unit,
        /// Some address in it.
        address: u32,
    },
    /// Each byte of the span becomes old AND payload.
    Lay {
        /// The first byte of the span.
        address: u32,
        /// Its length, 1 to 4,096.
        length: u32,
        /// Where its bytes begin in the payload.
        offset: u32,
    },
    /// This protection setting, and S7, S8, S9 become 0.
    Guard {
        /// 0 to 31.
        setting: u8,
    },
}

impl Step {
    /// The step's sixteen bytes.
    #[must_use]
    pub fn record(self) -> [u8; 16] {
        let (kind, byte_1, words) = match self {
            Step::Erase { unit, address } => (1, unit as u8, [address, 0, 0]),
            Step::Lay {
                address,
                length,
                offset,
            } => (2, 0, [address, length, offset]),
            Step::Guard { setting } => (3, setting, [0; 3]),
        };
        let mut record = [0; 16];
        (record[0], record[1]) = (kind, byte_1);
        for (at, word) in (4..).step_by(4).zip(words) {
            record[at..at + 4].copy_from_slice(&word.to_be_bytes());
        }
        record
    }
}

/// What a job will cost: the rises of three counts, and its tape's length.
#[derive(Clone, Copy, Debug, Default, PartialEq, Eq)]
pub struct Bill {
    /// The rise of programs.
    pub programs: u32,
    /// The rise of erases.
    pub erases: u32,
    /// The rise of register writes.
    pub register_writes: u32,
    /// Bytes of the tape.
    pub tape: u64,
}

/// Translates `job`, records of sixteen bytes, into the lent `tape`, and says
/// how many bytes of it are the tape. Nothing past them is written.
///
/// # Errors
///
/// Refusals 1 and 20 to 26.
///
/// ```
/// use tunebriar::{Part, Step, quote, translate};
///
/// let job = Step::Lay { address: 0xFE, length: 4, offset: 0 }.record();
/// let payload = [0x11, 0x22, 0x33, 0x44];
/// let bill = quote(Part::Fm25q16, 0, &job, &payload)?;
/// let mut tape = vec![0; bill.tape as usize];
/// assert_eq!(translate(Part::Fm25q16, 0, &job, &payload, &mut tape)?, 1_584);
/// assert_eq!(tape[264..274], [0, 6, 0, 8, 0x02, 0x00, 0x00, 0xFE, 0x11, 0x22]);
/// # Ok::<(), tunebriar::Refusal>(())
/// ```
pub fn translate(
    part: Part,
    setting: u8,
    job: &[u8],
    payload: &[u8],
    tape: &mut [u8],
) -> Result<u64, Refusal> {
    let (job, payload) = (job.into(), payload.into());
    let answer = ffi::translate(part.number(), u32::from(setting), job, payload, tape.into());
    Refusal::of(answer.number, answer.index)?;
    Ok(answer.length)
}

/// The bill beforehand, from the job alone.
///
/// # Errors
///
/// Those of [`translate`] but 26.
///
/// ```
/// use tunebriar::{Part, Step, quote};
///
/// // Setting 1 protects the top 64 KB, and the lay reaches one byte into it.
/// let job = Step::Lay { address: 0x1E_FFFF, length: 2, offset: 0 }.record();
/// let refusal = quote(Part::Fm25q16, 1, &job, &[0; 2]).unwrap_err();
/// assert_eq!((refusal.number(), refusal.index()), (25, 0));
/// assert_eq!(quote(Part::Fm25q16, 0, &job, &[0; 2])?.programs, 2);
/// # Ok::<(), tunebriar::Refusal>(())
/// ```
pub fn quote(part: Part, setting: u8, job: &[u8], payload: &[u8]) -> Result<Bill, Refusal> {
    let (job, payload) = (job.into(), payload.into());
    let bill = ffi::quote(part.number(), u32::from(setting), job, payload);
    Refusal::of(bill.number, bill.index)?;
    Ok(Bill {
        programs: bill.programs,
        erases: bill.erases,
        register_writes: bill.register_writes,
        tape: bill.length,
    })
}
