//! Whether a board can be played on at all, whatever the tape.

use super::boards::{self, Board};
use super::months::Month;
use super::{bills, sectors};
use crate::chip::PART;
use crate::error::Error;
use rusqlite::Connection;
use std::collections::HashMap;
use tunebriar::{Meter, SIZE, State, replay};

/// Why a board can play nothing, if so: an unknown chip, refusal 2 or 3. The
/// array that is lent stays as it is; no byte of it matters.
///
/// # Errors
///
/// Where the book cannot be read.
pub fn fault(book: &Connection, board: &Board, array: &mut [u8]) -> Result<Option<Error>, Error> {
    let about = format!("board {}", board.name);
    if let Err(error) = boards::known(board) {
        return Ok(Some(error.within(about)));
    }
    // An array that is none is lent as none, and the library says so.
    let size = match sectors::fit(book, board.id)? {
        true => array.len(),
        false => 0,
    };
    let refusal = replay(PART, board.state, &mut array[..size], &[]).err();
    Ok(refusal.map(|refusal| Error::refused(about, refusal)))
}

/// The faults of some boards.
///
/// # Errors
///
/// Where the book cannot be read.
pub fn faults<'a>(
    book: &Connection,
    some: impl IntoIterator<Item = &'a Board>,
) -> Result<Vec<Error>, Error> {
    let mut array = vec![0xFF; SIZE];
    let some = some.into_iter();
    let all = some.map(|board| fault(book, board, &mut array));
    Ok(all
        .collect::<Result<Vec<_>, _>>()?
        .into_iter()
        .flatten()
        .collect())
}

/// What has to be known beside a month's bill: boards that are broken, and
/// meters that are full, as they were when it ended.
///
/// # Errors
///
/// Where the book cannot be read.
pub fn notes(book: &Connection, month: &Month) -> Result<Vec<String>, Error> {
    let boards = at_end(book, month)?;
    let broken = faults(book, &boards)?.into_iter();
    let broken = broken.map(|fault| format!("{fault}: it can play nothing"));
    let full = boards.iter().filter(|board| full(board.state.meter));
    let full = full.map(|board| {
        let words = "a count of its meter is full: what would raise it is refused 7";
        format!("board {}: {words}", board.name)
    });
    Ok(broken.chain(full).collect())
}

fn full(meter: Meter) -> bool {
    let counts = [
        meter.programs,
        meter.erases,
        meter.register_writes,
        meter.ignored,
    ];
    counts.contains(&u32::MAX)
}

/// The boards of a month, as they were when it ended, or are.
fn at_end(book: &Connection, month: &Month) -> Result<Vec<Board>, Error> {
    let states = |month: i64| -> Result<HashMap<i64, State>, Error> {
        let there = bills::present(book, month)?.into_iter();
        Ok(there.map(|board| (board.id, board.state)).collect())
    };
    let there = states(month.id)?;
    let ends = match month.closed {
        Some(_) => states(month.id + 1)?,
        None => HashMap::new(),
    };
    let mut boards = boards::all(book)?;
    boards.retain(|board| there.contains_key(&board.id));
    for board in &mut boards {
        board.state = ends.get(&board.id).copied().unwrap_or(board.state);
    }
    Ok(boards)
}
