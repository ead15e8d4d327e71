//! A month of the book, as the bill takes it.

use super::{boards, months, plays, seals};
use crate::bill::{Bill, Department, Figures, Ignored, Play};
use crate::error::{Error, told};
use crate::sha256::hex;
use crate::tally::Asked;
use rusqlite::Connection;
use std::collections::{BTreeMap, HashMap};
use tunebriar::{RECORD, State};

/// All that is billed in a month. Departments that have boards are on it, also
/// where they played nothing. A closed month is what it was when it closed.
///
/// # Errors
///
/// Where the month was never opened, the book cannot be read, or a closed month
/// is not what was sealed.
pub fn bill(book: &Connection, name: &str) -> Result<Bill, Error> {
    let month = months::find(book, name)?;
    let bill = drawn(book, &month)?;
    seals::hold(book, &month, &bill)?;
    Ok(bill)
}

/// The bill as the book has it now, whatever the seal says.
///
/// # Errors
///
/// Where the book cannot be read; a play that nobody pays for.
pub fn drawn(book: &Connection, month: &months::Month) -> Result<Bill, Error> {
    let mut departments: BTreeMap<String, Department> = BTreeMap::new();
    let mut owners = HashMap::new();
    for board in present(book, month.id)? {
        let department = departments.entry(board.department.clone()).or_default();
        department.name.clone_from(&board.department);
        department.boards += 1;
        owners.insert(board.id, board);
    }
    let mut ignored = ignored(book, month.id)?;
    for play in plays::of(book, month.id, None)? {
        let owned = owners.get(&play.board);
        let owned = owned.and_then(|board| Some((board, departments.get_mut(&board.department)?)));
        let Some((board, department)) = owned else {
            return Err(Error::wrong(format_args!(
                "the pool: play {}: its board is not one of the month's, so nobody pays for it",
                play.number
            )));
        };
        let ignored = ignored.remove(&play.number).unwrap_or_default();
        let billed = billed(book, &play, &board.name, ignored)?;
        department.plays.push(billed);
    }
    Ok(Bill {
        month: month.name.clone().unwrap_or_default(),
        closed: month.closed.clone(),
        prices: month.prices()?,
        departments: departments.into_values().collect(),
    })
}

/// A board as it came into a month.
#[derive(Clone, Debug, PartialEq, Eq)]
pub struct Present {
    /// Its row.
    pub id: i64,
    /// The department that pays for it in that month.
    pub department: String,
    /// Its name.
    pub name: String,
    /// Its chip's name.
    pub chip: String,
    /// Its registers and its meter.
    pub state: State,
}

/// The boards that were in the book in a month, by name.
///
/// # Errors
///
/// Where the book cannot be read.
pub fn present(book: &Connection, month: i64) -> Result<Vec<Present>, Error> {
    let mut rows = book.prepare(
        "SELECT board.id, department.name, board.name, chip, opening.status, opening.awake, \
         opening.programs, opening.erases, opening.register_writes, opening.ignored \
         FROM opening JOIN board ON board.id = opening.board \
         JOIN department ON department.id = opening.department WHERE month = ?1 \
         ORDER BY board.name",
    )?;
    let rows = rows.query_map([month], |row| {
        Ok(Present {
            id: row.get(0)?,
            department: row.get(1)?,
            name: row.get(2)?,
            chip: row.get(3)?,
            state: boards::state(row, 4)?,
        })
    })?;
    Ok(rows.collect::<Result<_, _>>()?)
}

/// What was ignored in a month, by play.
fn ignored(book: &Connection, month: i64) -> Result<HashMap<i64, Ignored>, Error> {
    let mut rows = book.prepare(
        "SELECT play.id, command, verdict, count(*) FROM play JOIN ignored ON ignored.play = \
         play.id WHERE month = ?1 GROUP BY play.id, command, verdict",
    )?;
    let mut rows = rows.query([month])?;
    let mut all: HashMap<i64, Ignored> = HashMap::new();
    while let Some(row) = rows.next()? {
        let (command, verdict, count): (Option<u8>, usize, u64) =
            (row.get(1)?, row.get(2)?, row.get(3)?);
        let one = all.entry(row.get(0)?).or_default();
        let asked = match Asked::of(command) {
            Asked::Program => &mut one.programs,
            Asked::Erase => &mut one.erases,
            Asked::RegisterWrite => &mut one.register_writes,
            Asked::Other => &mut one.others,
        };
        *asked += count;
        if let Some(by_verdict) = one.by_verdict.get_mut(verdict.wrapping_sub(10)) {
            *by_verdict += count;
        }
    }
    Ok(all)
}

fn billed(
    book: &Connection,
    play: &plays::Play,
    board: &str,
    ignored: Ignored,
) -> Result<Play, Error> {
    let mut row = book.prepare_cached("SELECT sha256, length(bytes) FROM tape WHERE id = ?1")?;
    let (digest, bytes): ([u8; 32], u64) =
        row.query_row([play.tape], |row| Ok((row.get(0)?, row.get(1)?)))?;
    let by_verdict: u64 = ignored.by_verdict.iter().sum();
    // The meter's rise is what is billed, and the records must come to it.
    if by_verdict != u64::from(play.rise.ignored) {
        return Err(Error::wrong(format_args!(
            "the pool: play {}: its ignored records are not its meter's rise",
            play.number
        )));
    }
    Ok(Play {
        number: play.number as u64,
        board: board.to_string(),
        when: play.played.clone(),
        tape: play.name.clone(),
        sha256: hex(&digest),
        bytes,
        records: bytes / RECORD as u64,
        figures: Figures {
            programs: play.rise.programs.into(),
            erases: play.rise.erases.into(),
            register_writes: play.rise.register_writes.into(),
            ignored,
        },
        refusal: refusal(play),
    })
}

/// Why a play was refused, in words.
#[must_use]
pub fn refusal(play: &plays::Play) -> Option<String> {
    play.refusal
        .map(|(number, index)| told(tunebriar::Refusal::new(number, index)))
}

/// The boards of a department.
///
/// # Errors
///
/// Where there is no such department.
pub fn boards_of(book: &Connection, department: &str) -> Result<Vec<boards::Board>, Error> {
    let all = boards::all(book)?;
    let of: Vec<_> = all
        .into_iter()
        .filter(|board| board.department == department)
        .collect();
    match of.is_empty() {
        true => Err(Error::wrong(format_args!(
            "there is no department '{department}'"
        ))),
        false => Ok(of),
    }
}
