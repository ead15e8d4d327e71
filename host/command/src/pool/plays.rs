//! Plays in the book: which tape, what it raised, and what was ignored.

use super::boards::Board;
use crate::error::Error;
use crate::sha256::sha256;
use crate::tally::{Ignored, Outcome};
use rusqlite::{Connection, OptionalExtension, Row, params};
use std::collections::HashMap;
use tunebriar::{Meter, Refusal};

/// The most bytes of a tape in a book: whole records that SQLite still holds.
pub const LONGEST_TAPE: usize = 3_700_000 * tunebriar::RECORD;

/// A tape's SHA-256.
pub type Digest = [u8; 32];

/// What a play came to.
pub type Came = Result<Outcome, Refusal>;

/// A play as the book has it, but for its ignored records.
#[derive(Clone, Debug, PartialEq, Eq)]
pub struct Play {
    /// Its number in the book.
    pub number: i64,
    /// The board's row.
    pub board: i64,
    /// When it was played.
    pub played: String,
    /// The tape's row.
    pub tape: i64,
    /// The tape's name.
    pub name: String,
    /// What it raised.
    pub rise: Meter,
    /// The refusal's number and record, where it was refused.
    pub refusal: Option<(u32, u64)>,
}

/// The number that the next play gets.
///
/// # Errors
///
/// Where the book cannot be read.
pub fn next(book: &Connection) -> Result<i64, Error> {
    let query = "SELECT seq FROM sqlite_sequence WHERE name = 'play'";
    let last: Option<i64> = book.query_row(query, [], |row| row.get(0)).optional()?;
    Ok(last.unwrap_or(0) + 1)
}

/// Writes a play into the book.
///
/// # Errors
///
/// Where the book cannot be changed.
pub fn record(
    book: &Connection,
    now: &str,
    (month, number): (i64, i64),
    board: &Board,
    (name, tape): (&str, &[u8]),
    came: &Came,
) -> Result<(), Error> {
    let (rise, refusal, index) = match came {
        Ok(outcome) => (outcome.rise, None, None),
        Err(refusal) => (
            Meter::default(),
            Some(refusal.number()),
            Some(refusal.index()),
        ),
    };
    let tape = kept(book, tape)?;
    book.prepare_cached(
        "INSERT INTO play VALUES (?1, ?2, ?3, ?4, ?5, ?6, ?7, ?8, ?9, ?10, ?11, ?12)",
    )?
    .execute(params![
        number,
        month,
        board.id,
        now,
        tape,
        crate::error::plain(name),
        rise.programs,
        rise.erases,
        rise.register_writes,
        rise.ignored,
        refusal,
        index
    ])?;
    let Ok(outcome) = came else {
        return Ok(());
    };
    let mut insert = book.prepare_cached("INSERT INTO ignored VALUES (?1, ?2, ?3, ?4)")?;
    for one in &outcome.tally.ignored {
        insert.execute((number, one.record, one.command, one.verdict))?;
    }
    Ok(())
}

/// A tape's row, made where the book has it not.
fn kept(book: &Connection, tape: &[u8]) -> Result<i64, Error> {
    let digest = sha256(tape);
    let mut find = book.prepare_cached("SELECT id FROM tape WHERE sha256 = ?1")?;
    if let Some(id) = find.query_row([digest], |row| row.get(0)).optional()? {
        return Ok(id);
    }
    book.prepare_cached("INSERT INTO tape (sha256, bytes) VALUES (?1, ?2)")?
        .execute((digest, tape))?;
    Ok(book.last_insert_rowid())
}

/// A tape's bytes.
///
/// # Errors
///
/// Where the book cannot be read.
pub fn tape(book: &Connection, tape: i64) -> Result<Vec<u8>, Error> {
    let mut row = book.prepare_cached("SELECT bytes FROM tape WHERE id = ?1")?;
    Ok(row.query_row([tape], |row| row.get(0))?)
}

fn play(row: &Row) -> rusqlite::Result<Play> {
    let refusal: Option<u32> = row.get(9)?;
    let index: Option<u64> = row.get(10)?;
    Ok(Play {
        number: row.get(0)?,
        board: row.get(1)?,
        played: row.get(2)?,
        tape: row.get(3)?,
        name: row.get(4)?,
        rise: Meter {
            programs: row.get(5)?,
            erases: row.get(6)?,
            register_writes: row.get(7)?,
            ignored: row.get(8)?,
        },
        refusal: refusal.zip(index),
    })
}

const SELECT: &str = "SELECT id, board, played, tape, name, programs, erases, register_writes, \
                      ignored, refusal, refused_record FROM play";

/// The plays of a month, of one board or of all, in the order of the book.
///
/// # Errors
///
/// Where the book cannot be read.
pub fn of(book: &Connection, month: i64, board: Option<i64>) -> Result<Vec<Play>, Error> {
    let query = format!("{SELECT} WHERE month = ?1 AND (?2 IS NULL OR board = ?2) ORDER BY id");
    let mut rows = book.prepare_cached(&query)?;
    let rows = rows.query_map((month, board), play)?;
    Ok(rows.collect::<Result<_, _>>()?)
}

/// The play with a number.
///
/// # Errors
///
/// Where there is none.
pub fn find(book: &Connection, number: i64) -> Result<Play, Error> {
    let mut row = book.prepare_cached(&format!("{SELECT} WHERE id = ?1"))?;
    let found = row.query_row([number], play).optional()?;
    found.ok_or_else(|| Error::wrong(format_args!("there is no play {number}")))
}

/// The tapes that a board has played in a month, by their SHA-256, each with the
/// first play of it.
///
/// # Errors
///
/// Where the book cannot be read.
pub fn tapes(book: &Connection, month: i64, board: i64) -> Result<HashMap<Digest, i64>, Error> {
    let query = "SELECT sha256, min(play.id) FROM play JOIN tape ON tape.id = play.tape \
                 WHERE month = ?1 AND board = ?2 GROUP BY sha256";
    let mut rows = book.prepare_cached(query)?;
    let rows = rows.query_map((month, board), |row| Ok((row.get(0)?, row.get(1)?)))?;
    Ok(rows.collect::<Result<_, _>>()?)
}

/// Whether the play with a number, if there is one, is of this tape.
///
/// # Errors
///
/// Where the book cannot be read.
pub fn is_of(book: &Connection, number: i64, tape: Digest) -> Result<bool, Error> {
    let query = "SELECT 1 FROM play JOIN tape ON tape.id = play.tape \
                 WHERE play.id = ?1 AND sha256 = ?2";
    Ok(book.prepare_cached(query)?.exists((number, tape))?)
}

/// What was ignored of a play, in the order of its records.
///
/// # Errors
///
/// Where the book cannot be read.
pub fn ignored(book: &Connection, number: i64) -> Result<Vec<Ignored>, Error> {
    let query = "SELECT record, command, verdict FROM ignored WHERE play = ?1 ORDER BY record";
    let mut rows = book.prepare_cached(query)?;
    let rows = rows.query_map([number], |row| {
        Ok(Ignored {
            record: row.get(0)?,
            command: row.get(1)?,
            verdict: row.get(2)?,
        })
    })?;
    Ok(rows.collect::<Result<_, _>>()?)
}
