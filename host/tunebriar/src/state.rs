//! What a caller keeps between two calls.

use crate::{Refusal, Verdict, ffi};

/// A chip that the library knows, with its part number.
#[derive(Clone, Copy, Debug, PartialEq, Eq)]
pub enum Part {
    /// The FM25Q16.
    Fm25q16 = 1,
}

impl Part {
    /// The part number, as every entry takes it.
    #[must_use]
    pub fn number(self) -> u32 {
        self as u32
    }
}

/// The registers: 16 status bits, and whether the chip is awake.
///
/// Any word may be handed in; one that is not well formed is refusal 3.
///
/// ```
/// use tunebriar::{Part, Registers, finish};
///
/// let busy = Registers { status: 0x0207, awake: true };
/// assert!(busy.busy() && busy.wel() && busy.setting() == 1);
/// assert_eq!(finish(Part::Fm25q16, busy)?.status, 0x0204);
///
/// let asleep = Registers { awake: false, ..busy };
/// assert_eq!(finish(Part::Fm25q16, asleep).unwrap_err().number(), 3);
/// # Ok::<(), tunebriar::Refusal>(())
/// ```
#[derive(Clone, Copy, Debug, PartialEq, Eq)]
pub struct Registers {
    /// S15 to S0.
    pub status: u16,
    /// False when asleep.
    pub awake: bool,
}

impl Registers {
    /// S0: a program, an erase or a status write goes on.
    #[must_use]
    pub fn busy(self) -> bool {
        self.status & 1 != 0
    }

    /// S1: the write enable latch.
    #[must_use]
    pub fn wel(self) -> bool {
        self.status >> 1 & 1 != 0
    }

    /// S6 to S2, the protection setting, 0 to 31.
    #[must_use]
    pub fn setting(self) -> u8 {
        (self.status >> 2 & 31) as u8
    }

    pub(crate) fn lent(self) -> ffi::Regs {
        ffi::Regs {
            status: u32::from(self.status),
            awake: u32::from(self.awake),
        }
    }

    /// # Panics
    ///
    /// Where the library answers a word of more than 16 bits, which is proved
    /// not to be.
    pub(crate) fn answered(regs: ffi::Regs) -> Registers {
        Registers {
            status: u16::try_from(regs.status).expect("16 status bits were handed in"),
            awake: regs.awake != 0,
        }
    }
}

/// Awake, every status bit 0: where the bench readings start.
impl Default for Registers {
    fn default() -> Registers {
        Registers {
            status: 0,
            awake: true,
        }
    }
}

/// What is billed: four counts up to 4,294,967,295.
#[derive(Clone, Copy, Debug, Default, PartialEq, Eq)]
pub struct Meter {
    /// Accepted page programs.
    pub programs: u32,
    /// Accepted erases.
    pub erases: u32,
    /// Accepted status writes.
    pub register_writes: u32,
    /// Transactions that the chip ignored.
    pub ignored: u32,
}

impl Meter {
    /// Brings the meter up to date where it lies, by what became of a
    /// transaction. A refused one has no verdict, and counts nothing.
    ///
    /// # Errors
    ///
    /// Refusals 1 and 7; then the meter is as it was.
    ///
    /// ```
    /// use tunebriar::{Kind, Meter, Part, SIZE, State, Transaction, Verdict, transact};
    ///
    /// let (mut array, mut out) = (vec![0xFF; SIZE], [0; 1]);
    /// let (before, sent) = (State::default(), Transaction::of(&[0xC7]));
    /// let (verdict, after) = transact(Part::Fm25q16, before, sent, &mut array, &mut out)?;
    /// let mut meter = before.meter;
    /// meter.count(Part::Fm25q16, verdict)?;
    /// assert_eq!((meter, meter.ignored), (after.meter, 1));
    ///
    /// meter.count(Part::Fm25q16, Verdict::CarriedOut(Kind::EraseAll))?;
    /// assert_eq!((meter.erases, meter.ignored), (1, 1));
    ///
    /// let mut full = Meter { programs: u32::MAX, ..meter };
    /// assert_eq!(full.count(Part::Fm25q16, verdict).unwrap_err().number(), 7);
    /// assert_eq!(full.ignored, 1);
    /// # Ok::<(), tunebriar::Refusal>(())
    /// ```
    pub fn count(&mut self, part: Part, verdict: Verdict) -> Result<(), Refusal> {
        let mut lent = self.lent();
        let number = ffi::count(part.number(), &mut lent, verdict.number(), verdict.op());
        *self = Meter::answered(lent);
        Refusal::of(number, 0)
    }

    pub(crate) fn lent(self) -> ffi::Meter {
        ffi::Meter {
            programs: self.programs,
            erases: self.erases,
            register_writes: self.register_writes,
            ignored: self.ignored,
        }
    }

    pub(crate) fn answered(meter: ffi::Meter) -> Meter {
        Meter {
            programs: meter.programs,
            erases: meter.erases,
            register_writes: meter.register_writes,
            ignored: meter.ignored,
        }
    }
}

/// Registers and meter: all that a call hands back but the array.
#[derive(Clone, Copy, Debug, Default, PartialEq, Eq)]
pub struct State {
    /// The registers.
    pub registers: Registers,
    /// The meter.
    pub meter: Meter,
}

impl State {
    pub(crate) fn answered(answer: ffi::Answer) -> State {
        State {
            registers: Registers::answered(answer.regs),
            meter: Meter::answered(answer.meter),
        }
    }
}
