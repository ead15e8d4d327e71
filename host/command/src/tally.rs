//! What became of a tape's records.

use std::collections::BTreeMap;
use tunebriar::{Kind, Meter, Verdict};

/// What a transaction asked for, as the bill sees it.
#[derive(Clone, Copy, Debug, PartialEq, Eq, PartialOrd, Ord)]
pub enum Asked {
    /// A page program: 02.
    Program,
    /// An erase of any unit: 20, 52, D8, C7, 60.
    Erase,
    /// A status write: 01.
    RegisterWrite,
    /// Anything else, known or not.
    Other,
}

impl Asked {
    /// All four.
    pub const ALL: [Asked; 4] = [
        Asked::Program,
        Asked::Erase,
        Asked::RegisterWrite,
        Asked::Other,
    ];

    /// What a first byte asks for, carried out or not.
    #[must_use]
    pub fn of(command: Option<u8>) -> Asked {
        match command.and_then(Kind::of) {
            Some(Kind::Program) => Asked::Program,
            Some(Kind::EraseSector | Kind::EraseHalfBlock | Kind::EraseBlock | Kind::EraseAll) => {
                Asked::Erase
            }
            Some(Kind::WriteStatus) => Asked::RegisterWrite,
            _ => Asked::Other,
        }
    }

    /// In words.
    #[must_use]
    pub fn words(self) -> &'static str {
        match self {
            Asked::Program => "programs",
            Asked::Erase => "erases",
            Asked::RegisterWrite => "register writes",
            Asked::Other => "others",
        }
    }
}

/// A transaction that the chip ignored.
#[derive(Clone, Copy, Debug, PartialEq, Eq)]
pub struct Ignored {
    /// The record, counted from 0.
    pub record: u64,
    /// The first byte sent, if there was one.
    pub command: Option<u8>,
    /// The verdict's number, 10 to 16.
    pub verdict: u32,
}

/// The records of a tape by what became of them.
#[derive(Clone, Debug, Default, PartialEq, Eq)]
pub struct Tally {
    /// Carried out, by the command's code.
    pub carried_out: BTreeMap<u8, u64>,
    /// Ignored, one by one.
    pub ignored: Vec<Ignored>,
    /// Finish events.
    pub finishes: u64,
    /// Power cycles.
    pub power_cycles: u64,
}

impl Tally {
    /// Records played.
    #[must_use]
    pub fn records(&self) -> u64 {
        self.all_carried_out() + self.ignored.len() as u64 + self.finishes + self.power_cycles
    }

    /// Transactions carried out.
    #[must_use]
    pub fn all_carried_out(&self) -> u64 {
        self.carried_out.values().sum()
    }

    /// The ignored by verdict and by what was asked for.
    #[must_use]
    pub fn by_verdict(&self) -> BTreeMap<u32, BTreeMap<Asked, u64>> {
        let mut all: BTreeMap<u32, BTreeMap<Asked, u64>> = BTreeMap::new();
        for one in &self.ignored {
            let by_asked = all.entry(one.verdict).or_default();
            *by_asked.entry(Asked::of(one.command)).or_default() += 1;
        }
        all
    }

    /// One more transaction.
    pub fn count(&mut self, record: u64, bytes: &[u8], verdict: Verdict) {
        match verdict {
            Verdict::CarriedOut(kind) => *self.carried_out.entry(kind.code()).or_default() += 1,
            Verdict::Ignored(why) => self.ignored.push(Ignored {
                record,
                command: bytes.first().copied(),
                verdict: why as u32,
            }),
        }
    }
}

/// A tape that was played: what is billed, and what is told.
#[derive(Clone, Debug, PartialEq, Eq)]
pub struct Outcome {
    /// How much the counts have risen.
    pub rise: Meter,
    /// Its records.
    pub tally: Tally,
}

impl Outcome {
    /// From the meter before and after.
    #[must_use]
    pub fn new(from: Meter, to: Meter, tally: Tally) -> Outcome {
        let rise = Meter {
            programs: to.programs - from.programs,
            erases: to.erases - from.erases,
            register_writes: to.register_writes - from.register_writes,
            ignored: to.ignored - from.ignored,
        };
        Outcome { rise, tally }
    }
}
