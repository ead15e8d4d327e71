//! Whether a book is whole, but for what a replay shows.

use super::{bills, plays};
use crate::error::Error;
use rusqlite::Connection;

/// What SQLite finds in the file itself: damaged pages, rows that point nowhere.
///
/// # Errors
///
/// Where the book cannot be read.
pub fn file(book: &Connection, differs: &mut Vec<String>) -> Result<(), Error> {
    let mut rows = book.prepare("PRAGMA integrity_check")?;
    let rows = rows.query_map([], |row| row.get::<_, String>(0))?;
    for row in rows {
        differs.extend(
            Some(row?)
                .filter(|row| row != "ok")
                .map(|row| format!("the pool's file: {row}")),
        );
    }
    let mut rows = book.prepare("SELECT \"table\", rowid, parent FROM pragma_foreign_key_check")?;
    let mut rows = rows.query([])?;
    while let Some(row) = rows.next()? {
        let (table, id, parent): (String, Option<i64>, String) =
            (row.get(0)?, row.get(1)?, row.get(2)?);
        let id = id.map_or(String::new(), |id| format!(" {id}"));
        differs.push(format!("the pool: {table}{id}: its {parent} is not there"));
    }
    Ok(())
}

/// That plays have every number up to the last, and are in the order of months
/// and times.
///
/// # Errors
///
/// Where the book cannot be read.
pub fn plays(book: &Connection, differs: &mut Vec<String>) -> Result<(), Error> {
    let last = plays::next(book)? - 1;
    let count = "SELECT count(*) FROM play WHERE id BETWEEN 1 AND ?1";
    let count: i64 = book.query_row(count, [last], |row| row.get(0))?;
    if count != last {
        let missing = last - count;
        differs.push(format!(
            "the pool: {missing} of the plays 1 to {last} are not there"
        ));
    }
    let mut rows = book.prepare(
        "SELECT later.id FROM play JOIN play AS later ON later.id = play.id + 1 \
         WHERE later.month < play.month OR later.played < play.played",
    )?;
    for row in rows.query_map([], |row| row.get::<_, i64>(0))? {
        differs.push(format!(
            "the pool: play {}: its month or time is before that of the play before",
            row?
        ));
    }
    Ok(())
}

/// That a month can be billed, and a closed one is what was sealed.
pub fn bill(book: &Connection, month: &str, differs: &mut Vec<String>) {
    differs.extend(
        bills::bill(book, month)
            .err()
            .map(|error| error.to_string()),
    );
}
