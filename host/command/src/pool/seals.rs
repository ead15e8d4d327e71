//! The seal of a closed month: what its bill was, so that a later change of the
//! book is found. It is no signature: who knows how can seal a month anew, but
//! then every later seal, and the one that was told at the closing, differs.

use super::bills::{self, Present};
use super::months::{self, Month};
use crate::bill::{Bill, Department, Figures, Play};
use crate::error::Error;
use crate::sha256::{hex, sha256};
use rusqlite::Connection;
use serde_json::{Value, json};
use tunebriar::State;

/// The seal of a bill.
///
/// # Errors
///
/// Where the book cannot be read; where the month before has no seal.
pub fn of(book: &Connection, month: &Month, bill: &Bill) -> Result<[u8; 32], Error> {
    let text = json!([
        "tunebriar bill 1",
        before(book, month)?.map(|seal| hex(&seal)),
        bill.month,
        month.opened,
        bill.closed,
        month.prices,
        all(&bills::present(book, month.id)?, board),
        all(&bill.departments, department),
    ]);
    Ok(sha256(text.to_string().as_bytes()))
}

/// Holds a closed month's bill against its seal; an open one has none.
///
/// # Errors
///
/// Where it is not what was sealed.
pub fn hold(book: &Connection, month: &Month, bill: &Bill) -> Result<(), Error> {
    let name = &bill.month;
    let Some(seal) = month.seal else {
        return match months::last(book)?.id == month.id {
            true => Ok(()),
            false => Err(Error::wrong(format_args!(
                "the pool: {name} has no seal, and yet a later month has begun"
            ))),
        };
    };
    match of(book, month, bill)? == seal {
        true => Ok(()),
        false => Err(Error::wrong(format_args!(
            "the pool: {name} was changed after it was closed: its bill is not the one that was \
             sealed"
        ))),
    }
}

/// The seal of the month before, if there is one.
fn before(book: &Connection, month: &Month) -> Result<Option<[u8; 32]>, Error> {
    match month.id {
        1 => Ok(None),
        later => Ok(months::of_row(book, later - 1)?.seal),
    }
}

// Lists and not objects: nothing here hangs on the order of names.

fn all<T>(some: &[T], one: fn(&T) -> Value) -> Value {
    some.iter().map(one).collect()
}

fn board(board: &Present) -> Value {
    let State { registers, meter } = board.state;
    json!([
        board.name,
        board.department,
        board.chip,
        registers.status,
        registers.awake,
        [
            meter.programs,
            meter.erases,
            meter.register_writes,
            meter.ignored
        ],
    ])
}

fn department(department: &Department) -> Value {
    json!([
        department.name,
        department.boards,
        all(&department.plays, play)
    ])
}

fn play(play: &Play) -> Value {
    json!([
        play.number,
        play.board,
        play.when,
        play.tape,
        play.sha256,
        play.bytes,
        play.records,
        figures(&play.figures),
        play.refusal,
    ])
}

fn figures(figures: &Figures) -> Value {
    let ignored = &figures.ignored;
    json!([
        figures.programs,
        figures.erases,
        figures.register_writes,
        ignored.programs,
        ignored.erases,
        ignored.register_writes,
        ignored.others,
        ignored.by_verdict,
    ])
}
