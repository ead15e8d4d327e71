//! Months in the book.

use crate::bill::prices::Prices;
use crate::error::Error;
use rusqlite::{Connection, OptionalExtension, Row};
use std::path::Path;

/// A month; it has no name before it is opened.
#[derive(Clone, Debug, PartialEq, Eq)]
pub struct Month {
    /// Its row; later months have higher ones.
    pub id: i64,
    /// As `2026-11`.
    pub name: Option<String>,
    /// When it was opened.
    pub opened: Option<String>,
    /// The text of its prices.
    pub prices: Option<String>,
    /// When it was closed.
    pub closed: Option<String>,
    /// The seal of its bill, once it is closed.
    pub seal: Option<[u8; 32]>,
}

impl Month {
    /// What one of each costs in it.
    ///
    /// # Errors
    ///
    /// Where the book has no such text.
    pub fn prices(&self) -> Result<Prices, Error> {
        let text = self.prices.as_deref().unwrap_or_default();
        Prices::of_text(Path::new("the month's prices"), text)
    }
}

const SELECT: &str = "SELECT id, name, opened, prices, closed, seal FROM month";

fn month(row: &Row) -> rusqlite::Result<Month> {
    Ok(Month {
        id: row.get(0)?,
        name: row.get(1)?,
        opened: row.get(2)?,
        prices: row.get(3)?,
        closed: row.get(4)?,
        seal: row.get(5)?,
    })
}

/// The month that is still to be closed: what is played belongs to it.
///
/// # Errors
///
/// Where the book cannot be read.
pub fn last(book: &Connection) -> Result<Month, Error> {
    let mut row = book.prepare_cached(&format!("{SELECT} ORDER BY id DESC LIMIT 1"))?;
    Ok(row.query_row([], month)?)
}

/// Every month that was opened, in their order.
///
/// # Errors
///
/// Where the book cannot be read.
pub fn all(book: &Connection) -> Result<Vec<Month>, Error> {
    let mut rows = book.prepare(&format!("{SELECT} WHERE name IS NOT NULL ORDER BY id"))?;
    let rows = rows.query_map([], month)?;
    Ok(rows.collect::<Result<_, _>>()?)
}

/// The month with a name.
///
/// # Errors
///
/// Where it was never opened.
pub fn find(book: &Connection, name: &str) -> Result<Month, Error> {
    let mut row = book.prepare_cached(&format!("{SELECT} WHERE name = ?1"))?;
    let found = row.query_row([name], month).optional()?;
    found.ok_or_else(|| Error::wrong(format_args!("the month {name} was never opened")))
}

/// The month of a row.
///
/// # Errors
///
/// Where there is none.
pub fn of_row(book: &Connection, id: i64) -> Result<Month, Error> {
    let mut row = book.prepare_cached(&format!("{SELECT} WHERE id = ?1"))?;
    Ok(row.query_row([id], month)?)
}

/// Notes what the boards are at a month's beginning; or one board, where it
/// comes later.
///
/// # Errors
///
/// Where the book cannot be changed.
pub fn begins(book: &Connection, month: i64, board: Option<i64>) -> Result<(), Error> {
    book.prepare_cached(
        "INSERT INTO opening SELECT ?1, id, department, status, awake, programs, erases, \
         register_writes, ignored FROM board WHERE ?2 IS NULL OR id = ?2",
    )?
    .execute((month, board))?;
    Ok(())
}

/// Opens the last month under a name, with its prices. With `again`, one that
/// is open gets new prices, and the name if it has another.
///
/// # Errors
///
/// Where another is open, or the name is not later than the one before.
pub fn open(
    book: &Connection,
    now: &str,
    name: &str,
    prices: &Prices,
    again: bool,
) -> Result<(), Error> {
    let last = last(book)?;
    match last.name.as_deref() {
        Some(open) if open == name && again => {}
        Some(open) if open == name => {
            let words = format!("{name} is open already; --force gives it these prices");
            return Err(Error::denied(words));
        }
        Some(_) if again => later(book, name)?,
        Some(open) => {
            let words = format!(
                "{open} is open; it has to be closed before {name} opens, or --force renames it"
            );
            return Err(Error::denied(words));
        }
        None => later(book, name)?,
    }
    book.execute(
        "UPDATE month SET name = ?2, opened = coalesce(opened, ?3), prices = ?4 WHERE id = ?1",
        (last.id, name, now, prices.text()),
    )?;
    Ok(())
}

fn later(book: &Connection, name: &str) -> Result<(), Error> {
    let query = "SELECT max(name) FROM month WHERE closed IS NOT NULL";
    let before: Option<String> = book.query_row(query, [], |row| row.get(0))?;
    match before {
        Some(before) if before.as_str() >= name => Err(Error::denied(format_args!(
            "{before} is closed already; {name} is not later"
        ))),
        _ => Ok(()),
    }
}

/// The month with a name, where it is open.
///
/// # Errors
///
/// Where it is not.
pub fn find_open(book: &Connection, name: &str) -> Result<Month, Error> {
    let month = find(book, name)?;
    match &month.closed {
        Some(closed) => Err(Error::denied(format_args!("{name} was closed at {closed}"))),
        None => Ok(month),
    }
}

/// Closes a month under the seal of its bill, and begins the next.
///
/// # Errors
///
/// Where the book cannot be changed.
pub fn close(book: &Connection, now: &str, month: &Month, seal: [u8; 32]) -> Result<(), Error> {
    book.execute(
        "UPDATE month SET closed = ?2, seal = ?3 WHERE id = ?1",
        (month.id, now, seal),
    )?;
    book.execute("INSERT INTO month (id) VALUES (?1)", [month.id + 1])?;
    begins(book, month.id + 1, None)
}
