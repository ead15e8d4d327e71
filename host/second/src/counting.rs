//! The paper's counting sentence by itself: a meter brought up to date by the
//! number that a transaction answered and the first byte that it was sent.
//!
//! The bus counts by the effect that a command has taken. Here no command is
//! known but for the codes that the sentence speaks of, so that the two ways
//! can be held against each other.

use core::ops::RangeInclusive;

use crate::{Meter, PART, admit_counts};

/// Which of the four counts.
type Count = fn(&mut Meter) -> &mut u32;

/// A clause of the sentence: after these verdicts this count is one more.
struct Clause {
    verdicts: RangeInclusive<u32>,
    /// Of these op codes only, as wide as they are handed in; else of any.
    codes: Option<&'static [u32]>,
    count: Count,
}

/// "Verdicts 10 to 16 add one to ignored", and "accepted" is verdict 0.
static SENTENCE: [Clause; 4] = [
    accepted(&[0x02], |meter| &mut meter.programs),
    accepted(&[0x20, 0x52, 0xD8, 0xC7, 0x60], |meter| &mut meter.erases),
    accepted(&[0x01], |meter| &mut meter.register_writes),
    Clause {
        verdicts: 10..=16,
        codes: None,
        count: |meter| &mut meter.ignored,
    },
];

const fn accepted(codes: &'static [u32], count: Count) -> Clause {
    Clause {
        verdicts: 0..=0,
        codes: Some(codes),
        count,
    }
}

impl Clause {
    fn speaks_of(&self, number: u32, op: u32) -> bool {
        self.verdicts.contains(&number) && self.codes.is_none_or(|codes| codes.contains(&op))
    }
}

/// Brings `meter` up to date where it lies: 0, or refusal 1 or 7 and the meter
/// as it was. "Nothing else counts."
pub fn count(part: u32, meter: &mut Meter, number: u32, op: u32) -> u32 {
    if part != PART {
        return 1;
    }
    if let Err(refusal) = admit_counts(*meter, 1) {
        return refusal;
    }
    for clause in SENTENCE
        .iter()
        .filter(|clause| clause.speaks_of(number, op))
    {
        *(clause.count)(meter) += 1;
    }
    0
}
