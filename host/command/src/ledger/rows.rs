//! The rows of a ledger, each looked at before anything is played.

use crate::bill::csv::untamed;
use crate::error::{Error, plain};
use crate::files::{self, Identity, identity};
use crate::names;
use crate::pool::plays::LONGEST_TAPE;
use crate::source::Source;
use csv::{ReaderBuilder, StringRecord};
use std::collections::HashMap;
use std::path::{Path, PathBuf};

/// A tape and the board that it is played on.
#[derive(Clone, Debug, PartialEq, Eq)]
pub struct Row {
    /// Its line, counted from 1.
    pub line: u64,
    /// The department that pays.
    pub department: String,
    /// The board, by its place among those of the ledger.
    pub board: usize,
    /// The tape's file.
    pub tape: Source,
    /// The tape as the ledger has it.
    pub name: String,
    /// What its bytes' SHA-256 must be, where the ledger says so.
    pub sha256: Option<String>,
    /// Its number in the book that the ledger was exported from.
    pub number: Option<i64>,
}

/// A board of a ledger.
#[derive(Clone, Debug, PartialEq, Eq)]
pub struct Board {
    /// The line where it comes first.
    pub line: u64,
    /// Its department.
    pub department: String,
    /// Its name.
    pub name: String,
    /// Its array and state, where it is to be brought into the pool.
    pub files: Option<(PathBuf, PathBuf)>,
}

/// A ledger.
#[derive(Debug, Default)]
pub struct Rows {
    /// Its boards, in the order in which they come.
    pub boards: Vec<Board>,
    /// Its rows.
    pub rows: Vec<Row>,
}

/// What tells boards apart: a name, or a chip's two files however they are
/// called.
#[derive(Clone, PartialEq, Eq, Hash)]
enum Key {
    Name(String),
    Files(Identity, Identity),
}

const KNOWN: [&str; 8] = [
    "department",
    "board",
    "array",
    "state",
    "tape",
    "sha256",
    "number",
    "played",
];

/// A ledger of which lines have been taken so far.
struct Reading<'a> {
    path: &'a Path,
    repeats: bool,
    columns: HashMap<&'static str, usize>,
    keys: HashMap<Key, usize>,
    owners: HashMap<Identity, u64>,
    seen: HashMap<(usize, Identity), u64>,
    taken: Rows,
}

/// The rows of a ledger; its files are looked for in its own folder. With
/// `repeats`, a row may come twice.
///
/// # Errors
///
/// The first line that is wrong.
pub fn read(path: &Path, repeats: bool) -> Result<Rows, Error> {
    let text = files::text(path)?;
    let Some((skipped, header, rest)) = header(&text) else {
        return Err(Error::file(path, "there is no line in it"));
    };
    let delimiter = match header {
        _ if header.contains(';') => b';',
        _ if header.contains('\t') => b'\t',
        _ => b',',
    };
    let mut builder = ReaderBuilder::new();
    builder
        .has_headers(false)
        .flexible(true)
        .delimiter(delimiter)
        .trim(csv::Trim::All);
    let mut reading = Reading {
        path,
        repeats,
        columns: HashMap::new(),
        keys: HashMap::new(),
        owners: HashMap::new(),
        seen: HashMap::new(),
        taken: Rows::default(),
    };
    let at = |line: u64, words: String| Error::line(path, skipped + line, words);
    for record in builder.from_reader(rest.as_bytes()).records() {
        let record = record.map_err(|error| {
            let line = error.position().map_or(1, csv::Position::line);
            at(line, "this is no CSV in UTF-8".to_string())
        })?;
        let line = record.position().map_or(1, |place| line(rest, place));
        match reading.columns.is_empty() {
            true => reading.header(&record).map_err(|words| at(line, words))?,
            false => reading.row(skipped + line, &record)?,
        }
    }
    match reading.taken.rows.is_empty() {
        true => Err(Error::file(path, "there is no tape in it")),
        false => Ok(reading.taken),
    }
}

/// How many lines stand before the header, the header, and the text from it on.
/// Only there a line that begins with # is a comment.
fn header(text: &str) -> Option<(u64, &str, &str)> {
    let mut rest = text;
    for (skipped, line) in (0..).zip(text.lines()) {
        if !line.trim().is_empty() && !line.starts_with('#') {
            return Some((skipped, line, rest));
        }
        rest = rest.split_once('\n').map_or("", |(_, rest)| rest);
    }
    None
}

/// The line of a record, which may begin after blank lines.
fn line(text: &str, place: &csv::Position) -> u64 {
    let rest = text.as_bytes().get(place.byte() as usize..);
    let blank = rest.unwrap_or_default().iter();
    let blank = blank.take_while(|byte| matches!(byte, b'\r' | b'\n'));
    place.line() + blank.filter(|byte| **byte == b'\n').count() as u64
}

impl Reading<'_> {
    fn header(&mut self, record: &StringRecord) -> Result<(), String> {
        for (place, field) in record.iter().enumerate() {
            let Some(known) = KNOWN.iter().find(|known| **known == field) else {
                let words = format!("the header has '{field}', none of {}", KNOWN.join(", "));
                return Err(words);
            };
            if self.columns.insert(known, place).is_some() {
                return Err(format!("the header has '{field}' twice"));
            }
        }
        let has = |field| self.columns.contains_key(field);
        let chip = has("board") != (has("array") && has("state")) && has("array") == has("state");
        match has("department") && has("tape") && chip {
            true => Ok(()),
            false => {
                Err("the header is department,board,tape or department,array,state,tape".into())
            }
        }
    }

    fn row(&mut self, line: u64, record: &StringRecord) -> Result<(), Error> {
        let path = self.path;
        let wrong = |words: String| Error::line(path, line, words);
        if record.len() != self.columns.len() {
            let words = format!(
                "{} fields; the header has {}",
                record.len(),
                self.columns.len()
            );
            return Err(wrong(words));
        }
        let field = |name: &str| match self.columns.get(name).map(|&place| &record[place]) {
            Some("") => Err(wrong(format!("the {name} is empty"))),
            found => Ok(untamed(found.unwrap_or_default()).to_string()),
        };
        let department = names::name(&field("department")?).map_err(wrong)?;
        let chip = [field("board")?, field("array")?, field("state")?];
        let (tape, sha256) = (field("tape")?, field("sha256")?);
        let sha256 = (!sha256.is_empty()).then_some(sha256);
        let number = field("number").unwrap_or_default().parse().ok();
        let board = self.board(line, &department, chip)?;
        let file = self.beside(&tape);
        let file = Source::look(&file, LONGEST_TAPE).map_err(|error| self.at(line, error))?;
        let before = file
            .identity
            .and_then(|file| self.seen.insert((board, file), line));
        if let (false, Some(before)) = (self.repeats, before) {
            let words = format!("the same as line {before}; --repeats plays it again");
            return Err(wrong(words));
        }
        self.taken.rows.push(Row {
            line,
            department,
            board,
            tape: file,
            name: plain(&tape),
            sha256,
            number,
        });
        Ok(())
    }

    /// The place of a row's board among those of the ledger.
    fn board(
        &mut self,
        line: u64,
        department: &str,
        [board, array, state]: [String; 3],
    ) -> Result<usize, Error> {
        let files = match board.is_empty() {
            true => Some((self.beside(&array), self.beside(&state))),
            false => None,
        };
        let key = match &files {
            Some((array, state)) => self.chip(line, array, state)?,
            None => Key::Name(board.clone()),
        };
        let wrong = |words: String| Error::line(self.path, line, words);
        if let Some(&place) = self.keys.get(&key) {
            let known = &self.taken.boards[place];
            return match known.department == department {
                true => Ok(place),
                false => Err(wrong(format!(
                    "in line {} the board is one of {}",
                    known.line, known.department
                ))),
            };
        }
        let called = array.strip_suffix(".array").unwrap_or(&array);
        let name = if board.is_empty() { called } else { &board };
        let name = names::name(name.trim_start_matches("./")).map_err(wrong)?;
        self.keys.insert(key, self.taken.boards.len());
        self.taken.boards.push(Board {
            line,
            department: department.to_string(),
            name,
            files,
        });
        Ok(self.taken.boards.len() - 1)
    }

    /// A chip by its files; neither belongs to another chip.
    fn chip(&mut self, line: u64, array: &Path, state: &Path) -> Result<Key, Error> {
        let (array, state) = (self.readable(line, array)?, self.readable(line, state)?);
        let key = Key::Files(array, state);
        if self.keys.contains_key(&key) {
            return Ok(key);
        }
        for file in [array, state] {
            if let Some(before) = self.owners.insert(file, line) {
                let words = format!("its array or state is that of another chip, in line {before}");
                return Err(Error::line(self.path, line, words));
            }
        }
        Ok(key)
    }

    /// The identity of a chip's file, which is a regular one.
    fn readable(&self, line: u64, file: &Path) -> Result<Identity, Error> {
        let regular = || match files::there(file)?.filter(|there| !there.is_dir()) {
            Some(there) if !there.is_file() => Err(Error::file(
                file,
                "cannot be read: a ledger's chip is in regular files",
            )),
            _ => files::readable(file),
        };
        let metadata = regular().map_err(|error| self.at(line, error))?;
        Ok(identity(&metadata))
    }

    fn at(&self, line: u64, error: Error) -> Error {
        error.within(format_args!("{}: line {line}", self.path.display()))
    }

    fn beside(&self, name: &str) -> PathBuf {
        self.path.parent().unwrap_or(Path::new("")).join(name)
    }
}
