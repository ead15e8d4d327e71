//! Boards in the book.

use super::{months, sectors, sound};
use crate::chip::NAME;
use crate::error::Error;
use rusqlite::{Connection, OptionalExtension, Row};
use tunebriar::{Meter, Registers, SIZE, State};

/// A board, but for its array.
#[derive(Clone, Debug, PartialEq, Eq)]
pub struct Board {
    /// Its row.
    pub id: i64,
    /// Its name.
    pub name: String,
    /// The department that pays for it.
    pub department: String,
    /// Its chip's name.
    pub chip: String,
    /// When it came into the book.
    pub added: String,
    /// Its registers and its meter.
    pub state: State,
}

const COLUMNS: &str = "status, awake, programs, erases, register_writes, ignored";

/// A state from six columns.
///
/// # Errors
///
/// Where they are not there, or too wide.
pub fn state(row: &Row, at: usize) -> rusqlite::Result<State> {
    Ok(State {
        registers: Registers {
            status: row.get(at)?,
            awake: row.get(at + 1)?,
        },
        meter: Meter {
            programs: row.get(at + 2)?,
            erases: row.get(at + 3)?,
            register_writes: row.get(at + 4)?,
            ignored: row.get(at + 5)?,
        },
    })
}

fn columns(state: State) -> [u32; 6] {
    let State { registers, meter } = state;
    [
        registers.status.into(),
        registers.awake.into(),
        meter.programs,
        meter.erases,
        meter.register_writes,
        meter.ignored,
    ]
}

fn board(row: &Row) -> rusqlite::Result<Board> {
    Ok(Board {
        id: row.get(0)?,
        name: row.get(1)?,
        department: row.get(2)?,
        chip: row.get(3)?,
        added: row.get(4)?,
        state: state(row, 5)?,
    })
}

fn select(rest: &str) -> String {
    format!(
        "SELECT board.id, board.name, department.name, chip, added, {COLUMNS} FROM board \
         JOIN department ON department.id = board.department {rest}"
    )
}

/// Every board, by department and name.
///
/// # Errors
///
/// Where the book cannot be read.
pub fn all(book: &Connection) -> Result<Vec<Board>, Error> {
    let mut rows = book.prepare(&select("ORDER BY department.name, board.name"))?;
    let rows = rows.query_map([], board)?;
    Ok(rows.collect::<Result<_, _>>()?)
}

/// The board with a name, if there is one.
///
/// # Errors
///
/// Where the book cannot be read.
pub fn named(book: &Connection, name: &str) -> Result<Option<Board>, Error> {
    let mut row = book.prepare_cached(&select("WHERE board.name = ?1"))?;
    Ok(row.query_row([name], board).optional()?)
}

/// The board of a row.
///
/// # Errors
///
/// Where there is none, or it cannot be read.
pub fn of_row(book: &Connection, id: i64) -> Result<Board, Error> {
    let mut row = book.prepare_cached(&select("WHERE board.id = ?1"))?;
    Ok(row.query_row([id], board)?)
}

/// That a board's chip is one we know.
///
/// # Errors
///
/// Where it is not.
pub fn known(board: &Board) -> Result<(), Error> {
    match board.chip == NAME {
        true => Ok(()),
        false => Err(Error::wrong(format_args!(
            "its chip '{}' is none that this command knows",
            board.chip
        ))),
    }
}

/// The board with a name, where the library would play on it.
///
/// # Errors
///
/// Where there is none; an unknown chip; refusals 2 and 3.
pub fn find(book: &Connection, name: &str) -> Result<Board, Error> {
    let found = named(book, name)?;
    let board = found.ok_or_else(|| {
        Error::wrong(format_args!(
            "there is no board '{name}'; 'tunebriar board list' shows those there are"
        ))
    })?;
    match sound::fault(book, &board, &mut vec![0xFF; SIZE])? {
        Some(fault) => Err(fault),
        None => Ok(board),
    }
}

/// Brings a board into the book, with its array's sectors. It is looked at before: its
/// names are good, and the library would play on it.
///
/// # Errors
///
/// Where its name is taken, or the book cannot be changed.
pub fn add(book: &Connection, board: &Board, array: &[(usize, &[u8])]) -> Result<Board, Error> {
    if named(book, &board.name)?.is_some() {
        return Err(Error::wrong(format_args!(
            "there is a board '{}' already",
            board.name
        )));
    }
    let [status, awake, programs, erases, register_writes, ignored] = columns(board.state);
    book.prepare_cached("INSERT INTO department (name) VALUES (?1) ON CONFLICT DO NOTHING")?
        .execute([&board.department])?;
    book.prepare_cached(&format!(
        "INSERT INTO board (name, department, chip, added, {COLUMNS}) \
         SELECT ?1, id, ?3, ?4, ?5, ?6, ?7, ?8, ?9, ?10 FROM department WHERE name = ?2"
    ))?
    .execute(rusqlite::params![
        board.name,
        board.department,
        board.chip,
        board.added,
        status,
        awake,
        programs,
        erases,
        register_writes,
        ignored
    ])?;
    let id = book.last_insert_rowid();
    let board = Board {
        id,
        ..board.clone()
    };
    sectors::first(book, id, array)?;
    months::begins(book, months::last(book)?.id, Some(id))?;
    Ok(board)
}

/// Keeps a board's registers and meter.
///
/// # Errors
///
/// Where the book cannot be changed.
pub fn keep(book: &Connection, board: i64, state: State) -> Result<(), Error> {
    let [status, awake, programs, erases, register_writes, ignored] = columns(state);
    book.prepare_cached(
        "UPDATE board SET status = ?2, awake = ?3, programs = ?4, erases = ?5, \
         register_writes = ?6, ignored = ?7 WHERE id = ?1",
    )?
    .execute((
        board,
        status,
        awake,
        programs,
        erases,
        register_writes,
        ignored,
    ))?;
    Ok(())
}

/// A board's registers and meter when a month began.
///
/// # Errors
///
/// Where the book cannot be read; where the board was not in that month.
pub fn opening(book: &Connection, month: i64, board: i64) -> Result<State, Error> {
    let query = format!("SELECT {COLUMNS} FROM opening WHERE month = ?1 AND board = ?2");
    let mut row = book.prepare_cached(&query)?;
    Ok(row.query_row((month, board), |row| state(row, 0))?)
}
