//! Arrays in the book: the sectors that are not all FF, and what they were when
//! a month began.

use crate::error::Error;
use rusqlite::{Connection, OptionalExtension, Row};
use tunebriar::SIZE;

/// Bytes of a sector.
pub const SECTOR: usize = 4_096;
/// A sector after an erase.
const ERASED: [u8; SECTOR] = [0xFF; SECTOR];

/// A board's array as it is now: `put` gets the sectors that are not erased,
/// each with its bytes up to the FFs at its end.
///
/// # Errors
///
/// Where the book cannot be read.
pub fn load(book: &Connection, board: i64, mut put: impl FnMut(usize, &[u8])) -> Result<(), Error> {
    let mut rows = book.prepare_cached("SELECT place, bytes FROM sector WHERE board = ?1")?;
    let mut rows = rows.query([board])?;
    while let Some(row) = rows.next()? {
        one(row, &mut put)?;
    }
    Ok(())
}

/// A board's array as it was when a month began: of each sector the oldest that
/// was kept since then, or else what it is now. The last that `put` gets of a
/// sector counts.
///
/// # Errors
///
/// Where the book cannot be read.
pub fn load_opening(
    book: &Connection,
    board: i64,
    month: i64,
    mut put: impl FnMut(usize, &[u8]),
) -> Result<(), Error> {
    load(book, board, &mut put)?;
    let mut rows = book.prepare_cached(
        "SELECT place, bytes FROM opening_sector WHERE board = ?1 AND month >= ?2 \
         ORDER BY month DESC",
    )?;
    let mut rows = rows.query([board, month])?;
    while let Some(row) = rows.next()? {
        one(row, &mut put)?;
    }
    Ok(())
}

/// Whether all that is kept of a board's array lies on the chip.
///
/// # Errors
///
/// Where the book cannot be read.
pub fn fit(book: &Connection, board: i64) -> Result<bool, Error> {
    let query = "SELECT count(*) FROM sector WHERE board = ?1 AND place NOT BETWEEN 0 AND ?2";
    let mut row = book.prepare_cached(query)?;
    let off: i64 = row.query_row((board, SIZE / SECTOR - 1), |row| row.get(0))?;
    Ok(off == 0)
}

fn one(row: &Row, put: &mut impl FnMut(usize, &[u8])) -> Result<(), Error> {
    let (place, bytes) = (
        row.get::<_, usize>(0)?,
        row.get_ref(1)?.as_blob().unwrap_or(&[]),
    );
    if place >= SIZE / SECTOR || bytes.len() > SECTOR {
        return Err(Error::wrong("the pool: a sector that no chip has"));
    }
    put(place, bytes);
    Ok(())
}

/// A board's whole array.
///
/// # Errors
///
/// Where the book cannot be read.
pub fn array(book: &Connection, board: i64) -> Result<Vec<u8>, Error> {
    let mut array = vec![0xFF; SIZE];
    load(book, board, |place, bytes| {
        array[place * SECTOR..][..bytes.len()].copy_from_slice(bytes);
    })?;
    Ok(array)
}

/// A sector as it is kept: without the FFs at its end.
fn kept(sector: &[u8]) -> &[u8] {
    let end = sector.iter().rposition(|&byte| byte != 0xFF);
    &sector[..end.map_or(0, |last| last + 1)]
}

/// Keeps a sector, if it differs from the book's, and what it was when the
/// month began, if that is not kept yet.
///
/// # Errors
///
/// Where the book cannot be changed.
pub fn save(
    book: &Connection,
    board: i64,
    month: i64,
    (place, sector): (usize, &[u8]),
) -> Result<(), Error> {
    let mut was =
        book.prepare_cached("SELECT bytes FROM sector WHERE board = ?1 AND place = ?2")?;
    let was: Option<Vec<u8>> = was.query_row((board, place), |row| row.get(0)).optional()?;
    let was = was.unwrap_or_default();
    if same(sector, &was) {
        return Ok(());
    }
    book.prepare_cached("INSERT OR IGNORE INTO opening_sector VALUES (?1, ?2, ?3, ?4)")?
        .execute((board, place, month, was))?;
    let bytes = kept(sector);
    match bytes.is_empty() {
        true => book
            .prepare_cached("DELETE FROM sector WHERE board = ?1 AND place = ?2")?
            .execute((board, place))?,
        false => book
            .prepare_cached("INSERT OR REPLACE INTO sector VALUES (?1, ?2, ?3)")?
            .execute((board, place, bytes))?,
    };
    Ok(())
}

/// Whether a sector is what is kept of it, and FFs.
fn same(sector: &[u8], was: &[u8]) -> bool {
    let (start, end) = sector.split_at(was.len().min(SECTOR));
    start == was && end == &ERASED[..end.len()]
}

/// The sectors of an array that are not erased, as they are kept.
#[must_use]
pub fn of(array: &[u8]) -> Vec<(usize, &[u8])> {
    let sectors = array.chunks_exact(SECTOR).enumerate();
    let written = sectors.filter(|(_, sector)| *sector != ERASED);
    written
        .map(|(place, sector)| (place, kept(sector)))
        .collect()
}

/// The array of a board that is new; nothing of it was there before.
///
/// # Errors
///
/// Where the book cannot be changed.
pub fn first(book: &Connection, board: i64, sectors: &[(usize, &[u8])]) -> Result<(), Error> {
    let mut insert = book.prepare_cached("INSERT INTO sector VALUES (?1, ?2, ?3)")?;
    for (place, bytes) in sectors {
        insert.execute((board, place, bytes))?;
    }
    Ok(())
}
