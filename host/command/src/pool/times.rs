//! The order of times in the book.

use crate::error::Error;
use rusqlite::{Connection, OptionalExtension};

/// The last time in the book at which something was played, opened or closed.
fn last(book: &Connection) -> Result<Option<String>, Error> {
    let months = "SELECT max(max(coalesce(opened, '')), max(coalesce(closed, ''))) FROM month";
    let months: Option<String> = book.query_row(months, [], |row| row.get(0))?;
    let play = "SELECT played FROM play ORDER BY id DESC LIMIT 1";
    let play: Option<String> = book.query_row(play, [], |row| row.get(0)).optional()?;
    Ok(months.max(play))
}

/// That a time is not before the last one in the book.
///
/// # Errors
///
/// Where it is.
pub fn in_order(book: &Connection, now: &str) -> Result<(), Error> {
    match last(book)? {
        Some(last) if now < last.as_str() => Err(Error::denied(format_args!(
            "the time {now} is before the book's last, {last}: is the clock wrong, or an old \
             TUNEBRIAR_NOW still set? Nothing was changed"
        ))),
        _ => Ok(()),
    }
}
