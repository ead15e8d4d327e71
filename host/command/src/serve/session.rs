//! A board in a session: each operation is one transaction on it, and a record
//! on the session's tape.

use super::end::End;
use super::finish::{Finish, Waiting};
use crate::bench::Bench;
use crate::chip::PART;
use crate::error::Error;
use crate::pool::plays::LONGEST_TAPE;
use crate::tape::{LONGEST, laid};
use tunebriar::{Kind, Meter, RECORD, Reason, State, Transaction, Verdict, finish, transact};

/// How a session treats its board.
#[derive(Clone, Copy, Debug)]
pub struct How {
    /// The level of /WP.
    pub wp_high: bool,
    /// When a busy chip is done.
    pub finish: Finish,
    /// What 9F answers in place of the chip's own bytes.
    pub answer_id: Option<[u8; 3]>,
}

/// A board as its session has left it so far; the book knows nothing of it yet.
#[derive(Debug)]
pub struct Session {
    how: How,
    state: State,
    array: Vec<u8>,
    tape: Vec<u8>,
    /// The meter at the start, each count raised by one for each record: a tape is
    /// refused 7 where this has no room, whatever its records count.
    room: Meter,
    waiting: Waiting,
    /// Operations carried out or ignored.
    pub transactions: u64,
}

/// A play that is in the book, and what it raised.
pub type Kept = (i64, Meter);

impl Session {
    /// On the board that lies on the bench.
    #[must_use]
    pub fn new(bench: &mut Bench, how: How) -> Session {
        let chip = bench.chip();
        Session::of(chip.state, chip.array().to_vec(), how)
    }

    fn of(state: State, array: Vec<u8>, how: How) -> Session {
        Session {
            how,
            state,
            array,
            tape: Vec::new(),
            room: state.meter,
            waiting: Waiting::new(how.finish),
            transactions: 0,
        }
    }

    #[cfg(test)]
    pub(super) fn erased(how: How) -> Session {
        Session::of(State::default(), vec![0xFF; tunebriar::SIZE], how)
    }

    /// One operation: sends these bytes, and answers the last `read` that the chip
    /// drove.
    ///
    /// # Errors
    ///
    /// Where the library refuses it, or the tape is full; then nothing was done.
    pub fn operate(&mut self, sent: &[u8], read: usize) -> Result<Vec<u8>, End> {
        self.has_room()?;
        let mut out = [0; LONGEST];
        let transaction = Transaction {
            bytes: sent,
            leftover: 0,
            wp_high: self.how.wp_high,
        };
        let before = self.state.registers.busy();
        let (verdict, after) = transact(PART, self.state, transaction, &mut self.array, &mut out)
            .map_err(End::Refused)?;
        self.state = after;
        self.record(0, if self.how.wp_high { 8 } else { 0 }, sent);
        self.transactions += 1;
        let busy = (before, after.registers.busy());
        if self.waiting.is_over(sent.first(), busy) {
            self.finish()?;
        }
        self.answer_id(verdict, &mut out);
        Ok(out[sent.len() - read..sent.len()].to_vec())
    }

    /// A finish event. Where there is no room for it the chip stays busy; whatever
    /// comes next is then refused.
    fn finish(&mut self) -> Result<(), End> {
        if self.has_room().is_ok() {
            self.state.registers = finish(PART, self.state.registers).map_err(End::Refused)?;
            self.record(1, 0, &[]);
        }
        Ok(())
    }

    /// Other bytes in the answer of 9F, and of nothing else; what the chip ignored
    /// stays FF.
    fn answer_id(&self, verdict: Verdict, out: &mut [u8; LONGEST]) {
        if let (Some(bytes), Verdict::CarriedOut(Kind::Jedec)) = (self.how.answer_id, verdict) {
            out[1..4].copy_from_slice(&bytes);
        }
    }

    /// That a book takes one more record, and that the library would replay it.
    fn has_room(&self) -> Result<(), End> {
        if self.tape.len() + RECORD > LONGEST_TAPE {
            return Err(End::Full);
        }
        let ignored = Verdict::Ignored(Reason::Unknown);
        let mut room = self.room;
        room.count(PART, ignored).map_err(End::Refused)
    }

    fn record(&mut self, kind: u8, bits: u8, bytes: &[u8]) {
        self.tape.extend(laid(kind, bits, bytes));
        let room = &mut self.room;
        for count in [
            &mut room.programs,
            &mut room.erases,
            &mut room.register_writes,
            &mut room.ignored,
        ] {
            *count += 1;
        }
    }

    /// Plays the tape on the bench, from where the session began, and writes it into
    /// the book; nothing, where there was no transaction.
    ///
    /// # Errors
    ///
    /// Where the book cannot be changed.
    ///
    /// # Panics
    ///
    /// Where the replay ends elsewhere than the session, which is proved not to be.
    pub fn keep(&self, bench: &mut Bench, name: &str) -> Result<Option<Kept>, Error> {
        if self.tape.is_empty() {
            return Ok(None);
        }
        let (number, came) = bench.play(name, &self.tape)?;
        let outcome = came.map_err(|refusal| Error::refused(name, refusal))?;
        let chip = bench.chip();
        let agree = chip.state == self.state && chip.array() == self.array;
        assert!(
            agree,
            "the session and its tape do not agree: nothing is kept"
        );
        bench.keep()?;
        Ok(Some((number, outcome.rise)))
    }
}

#[cfg(test)]
mod tests;
