//! Turned away, and why.

use core::fmt;

/// A caller turned away: nothing that was lent has changed.
///
/// ```
/// use tunebriar::{Part, SIZE, State, replay};
///
/// let refusal = replay(Part::Fm25q16, State::default(), &mut vec![0; SIZE], &[0; 263]).unwrap_err();
/// assert_eq!((refusal.number(), refusal.index()), (30, 0));
/// assert_eq!(refusal.to_string(), "refused 30: the tape is not whole records");
/// ```
#[derive(Clone, Copy, Debug, PartialEq, Eq)]
pub struct Refusal {
    number: u32,
    index: u64,
}

impl Refusal {
    /// Nothing for number 0, which is no refusal.
    pub(crate) fn of(number: u32, index: u64) -> Result<(), Refusal> {
        match number {
            0 => Ok(()),
            _ => Err(Refusal { number, index }),
        }
    }

    /// A refusal that was answered before, from its number and index.
    #[must_use]
    pub fn new(number: u32, index: u64) -> Refusal {
        Refusal { number, index }
    }

    /// The number: 1 to 7, 20 to 26, 30 or 31.
    #[must_use]
    pub fn number(self) -> u32 {
        self.number
    }

    /// The first bad record's index for 22 to 25 and 31, else 0.
    #[must_use]
    pub fn index(self) -> u64 {
        self.index
    }

    /// Whether the index says something.
    #[must_use]
    pub fn has_index(self) -> bool {
        matches!(self.number, 22..=25 | 31)
    }

    /// Why, in words.
    #[must_use]
    pub fn words(self) -> &'static str {
        match self.number {
            1 => "no such part",
            2 => "the array has not the chip's size",
            3 => "the registers are not well formed",
            4 => "the transaction is longer than 4,096 bytes",
            5 => "there are more than 7 leftover bits",
            6 => "the output is shorter than the transaction",
            7 => "a count of the meter has no room",
            20 => {
                "the job is not whole records or has over 64, or its payload has over 65,536 bytes"
            }
            21 => "the start setting is over 31",
            22 => "a job record of unknown kind, or with a byte outside the rules",
            23 => "a job record leads off the chip, or its length is 0 or over 4,096",
            24 => "a job record asks for bytes outside the payload",
            25 => "a job record touches a protected byte",
            26 => "the tape buffer is too small",
            30 => "the tape is not whole records",
            31 => "a tape record outside the rules",
            _ => "for no reason that the paper knows",
        }
    }
}

impl fmt::Display for Refusal {
    fn fmt(&self, f: &mut fmt::Formatter<'_>) -> fmt::Result {
        write!(f, "refused {}", self.number)?;
        if self.has_index() {
            write!(f, " at record {}", self.index)?;
        }
        write!(f, ": {}", self.words())
    }
}

impl core::error::Error for Refusal {}
