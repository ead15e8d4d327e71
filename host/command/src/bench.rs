//! A board at work: loaded once, played on, and kept once.

use crate::chip::Chip;
use crate::error::Error;
use crate::pool::boards::{self, Board};
use crate::pool::plays::{self, Came};
use crate::pool::{months, sectors};
use rusqlite::Connection;
use tunebriar::State;

/// The place where boards are played on, one at a time, inside one transaction
/// of the book.
pub struct Bench<'a> {
    book: &'a Connection,
    now: &'a str,
    month: i64,
    next: i64,
    chip: Chip,
    board: Option<Board>,
}

impl<'a> Bench<'a> {
    /// An empty bench.
    ///
    /// # Errors
    ///
    /// Where the book cannot be read.
    pub fn new(book: &'a Connection, now: &'a str) -> Result<Bench<'a>, Error> {
        Ok(Bench {
            book,
            now,
            month: months::last(book)?.id,
            next: plays::next(book)?,
            chip: Chip::erased(State::default()),
            board: None,
        })
    }

    /// Takes a board; the one before has to be kept by then.
    ///
    /// # Errors
    ///
    /// Where the book cannot be read.
    pub fn take(&mut self, board: Board) -> Result<(), Error> {
        let chip = &mut self.chip;
        chip.become_other(board.state);
        sectors::load(self.book, board.id, |place, bytes| chip.fill(place, bytes))?;
        self.board = Some(board);
        Ok(())
    }

    /// The chip on the bench.
    pub fn chip(&mut self) -> &mut Chip {
        &mut self.chip
    }

    /// The number that the next play gets.
    #[must_use]
    pub fn next(&self) -> i64 {
        self.next
    }

    /// Plays a tape on the board, and writes it into the book under the next
    /// number.
    ///
    /// # Errors
    ///
    /// Where the board, not the tape, is why it cannot be played; where the
    /// book cannot be changed.
    pub fn play(&mut self, name: &str, tape: &[u8]) -> Result<(i64, Came), Error> {
        let number = self.next;
        let came = self.play_as(number, name, tape)?;
        self.next += 1;
        Ok((number, came))
    }

    /// The same, under a number that the caller has chosen.
    ///
    /// # Errors
    ///
    /// Those of `play`.
    pub fn play_as(&mut self, number: i64, name: &str, tape: &[u8]) -> Result<Came, Error> {
        let came = self.chip.play(tape);
        self.write(number, name, tape, &came)?;
        Ok(came)
    }

    /// Writes what was played on the chip by hand.
    ///
    /// # Errors
    ///
    /// Those of `play`.
    pub fn write(&self, number: i64, name: &str, tape: &[u8], came: &Came) -> Result<(), Error> {
        let board = self.board();
        if let Err(refusal) = came
            && broken(refusal.number())
        {
            let about = format!("board {}: {name} was not played", board.name);
            return Err(Error::refused(about, *refusal));
        }
        let at = (self.month, number);
        plays::record(self.book, self.now, at, board, (name, tape), came)
    }

    /// Keeps the board as its plays have left it.
    ///
    /// # Errors
    ///
    /// Where the book cannot be changed.
    pub fn keep(&mut self) -> Result<(), Error> {
        let id = self.board().id;
        boards::keep(self.book, id, self.chip.state)?;
        let mut changed = self.chip.changed();
        changed.try_for_each(|sector| sectors::save(self.book, id, self.month, sector))
    }

    fn board(&self) -> &Board {
        self.board.as_ref().expect("a board was taken")
    }
}

/// Refusals that a board gives to any tape: its array's size, its registers, or
/// no room on its meter.
fn broken(refusal: u32) -> bool {
    matches!(refusal, 1 | 2 | 3 | 7)
}
