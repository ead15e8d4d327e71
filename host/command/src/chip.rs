//! A chip that tapes are played on: twice, so that each record is told.
//!
//! What is billed comes from the library's replay of the whole tape. What is
//! told beside it, record by record, comes from the library's transactions on
//! the same records and an array of their own; both must end at the same
//! registers, meter and array, or nothing is told at all. So must the library's
//! count of the verdicts alone: what is told is billed.

use crate::marks::Marks;
use crate::pool::sectors::SECTOR;
use crate::tally::{Outcome, Tally};
use std::ops::Range;
use tunebriar::{
    Meter, Part, Read, Reader, Record, Refusal, SIZE, State, Transaction, Verdict, finish,
    power_cycle, replay_first, transact,
};

/// The only chip there is, and its name.
pub const PART: Part = Part::Fm25q16;
/// The name of `PART`.
pub const NAME: &str = "FM25Q16";

/// A chip with its array, twice.
#[derive(Debug)]
pub struct Chip {
    /// Registers and meter.
    pub state: State,
    replayed: Vec<u8>,
    told: Vec<u8>,
    /// Sectors that were filled; all others were erased.
    written: Marks,
    /// Sectors that may have changed since.
    changed: Marks,
}

/// A transaction that was told: its place on the tape, what was sent, what
/// became of it and what came out.
#[derive(Debug)]
pub struct Heard<'a> {
    /// The record, counted from 0.
    pub record: u64,
    /// What was sent.
    pub sent: Transaction<'a>,
    /// What became of it.
    pub verdict: Verdict,
    /// What came out, as many bytes as were sent.
    pub out: &'a [u8],
}

impl Chip {
    /// An erased chip.
    #[must_use]
    pub fn erased(state: State) -> Chip {
        Chip {
            state,
            replayed: vec![0xFF; SIZE],
            told: vec![0xFF; SIZE],
            written: Marks::default(),
            changed: Marks::default(),
        }
    }

    /// Makes it another chip, erased and in this state; what is erased already
    /// costs nothing.
    pub fn become_other(&mut self, state: State) {
        self.state = state;
        for place in self.written.places().chain(self.changed.places()) {
            self.replayed[sector(place)].fill(0xFF);
            self.told[sector(place)].fill(0xFF);
        }
        self.written.clear();
        self.changed.clear();
    }

    /// Fills a sector of such a chip: these bytes, and FFs to its end.
    pub fn fill(&mut self, place: usize, bytes: &[u8]) {
        for array in [&mut self.replayed, &mut self.told] {
            let (start, end) = array[sector(place)].split_at_mut(bytes.len());
            start.copy_from_slice(bytes);
            end.fill(0xFF);
        }
        self.written.mark(place);
    }

    /// The sectors that may have changed.
    ///
    /// # Panics
    ///
    /// Where the replays and the records do not agree, which is proved not to
    /// be.
    pub fn changed(&self) -> impl Iterator<Item = (usize, &[u8])> {
        self.changed.places().map(|place| {
            let (replayed, told) = (&self.replayed[sector(place)], &self.told[sector(place)]);
            assert!(replayed == told, "{DISAGREE}");
            (place, replayed)
        })
    }

    /// The array.
    ///
    /// # Panics
    ///
    /// Where the replays and the records do not agree, which is proved not to
    /// be.
    #[must_use]
    pub fn array(&self) -> &[u8] {
        assert!(self.replayed == self.told, "{DISAGREE}");
        &self.replayed
    }

    /// Plays a tape, and says what became of each record.
    ///
    /// # Errors
    ///
    /// Refusals 2, 3, 30, 31 and 7; then the chip is as it was.
    pub fn play(&mut self, tape: &[u8]) -> Result<Outcome, Refusal> {
        self.play_first(tape, u64::MAX, |_| {})
    }

    /// Plays the first `k` records of a tape, after every check of the whole
    /// tape, and lets `hear` have each transaction.
    ///
    /// # Errors
    ///
    /// Those of `play`.
    ///
    /// # Panics
    ///
    /// Where playing record by record ends elsewhere than the replay, which is
    /// proved not to be.
    pub fn play_first(
        &mut self,
        tape: &[u8],
        k: u64,
        mut hear: impl FnMut(&Heard),
    ) -> Result<Outcome, Refusal> {
        let before = self.state;
        let after = replay_first(PART, before, &mut self.replayed, tape, k)?;
        let mut telling = Telling {
            state: before,
            meter: before.meter,
            array: &mut self.told,
            changed: &mut self.changed,
            tally: Tally::default(),
        };
        let mut reader = Reader::new(tape);
        while reader.place() < k {
            let place = reader.place();
            let Read::Record(record) = reader.read() else {
                break;
            };
            telling.step(place, record, &mut hear)?;
        }
        let agree = telling.state == after && telling.meter == after.meter;
        assert!(agree, "{DISAGREE}");
        self.state = after;
        Ok(Outcome::new(before.meter, after.meter, telling.tally))
    }
}

/// The bytes of a sector.
fn sector(place: usize) -> Range<usize> {
    place * SECTOR..(place + 1) * SECTOR
}

const DISAGREE: &str = "the replay and its records do not agree: nothing is told";

/// A tape between two of its records.
struct Telling<'a> {
    state: State,
    /// What the verdicts alone come to.
    meter: Meter,
    array: &'a mut [u8],
    changed: &'a mut Marks,
    tally: Tally,
}

impl Telling<'_> {
    fn step(
        &mut self,
        place: u64,
        record: Record,
        hear: &mut impl FnMut(&Heard),
    ) -> Result<(), Refusal> {
        match record {
            Record::Transaction(sent) => return self.send(place, sent, hear),
            Record::Finish => {
                self.tally.finishes += 1;
                self.state.registers = finish(PART, self.state.registers)?;
            }
            Record::PowerCycle => {
                self.tally.power_cycles += 1;
                self.state.registers = power_cycle(PART, self.state.registers)?;
            }
        }
        Ok(())
    }

    fn send(
        &mut self,
        record: u64,
        sent: Transaction,
        hear: &mut impl FnMut(&Heard),
    ) -> Result<(), Refusal> {
        // A record has 260 bytes at the most.
        let mut out = [0; tunebriar::RECORD];
        let (verdict, state) = transact(PART, self.state, sent, self.array, &mut out)?;
        self.state = state;
        self.meter.count(PART, verdict)?;
        self.tally.count(record, sent.bytes, verdict);
        if let Verdict::CarriedOut(kind) = verdict {
            self.changed.carried_out(kind, sent.bytes);
        }
        let out = &out[..sent.bytes.len()];
        hear(&Heard {
            record,
            sent,
            verdict,
            out,
        });
        Ok(())
    }
}
