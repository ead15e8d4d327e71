//! What went wrong, in one line.

use std::fmt;
use std::path::Path;
use tunebriar::Refusal;

/// Why a call is not served, and the exit status that says so.
#[derive(Debug, PartialEq, Eq)]
pub struct Error {
    status: u8,
    words: String,
}

/// The call was understood, and is turned away.
pub const REFUSED: u8 = 1;
/// Wrong usage, or a file or a book that cannot be read or written.
pub const WRONG: u8 = 2;

/// Another call changes the book, and does so for too long.
const IN_USE: &str = "the pool is in use by another call, and --wait is over; nothing was changed";

impl Error {
    fn new(status: u8, words: impl fmt::Display) -> Error {
        Error {
            status,
            words: words.to_string(),
        }
    }

    /// Wrong usage, or anything else that is the caller's to mend.
    pub fn wrong(words: impl fmt::Display) -> Error {
        Error::new(WRONG, words)
    }

    /// Turned away for a reason that is not the library's.
    pub fn denied(words: impl fmt::Display) -> Error {
        Error::new(REFUSED, words)
    }

    /// A bad file.
    pub fn file(path: &Path, words: impl fmt::Display) -> Error {
        Error::wrong(format_args!("{}: {words}", shown(path)))
    }

    /// A bad line of a text file, counted from 1.
    pub fn line(path: &Path, line: impl fmt::Display, words: impl fmt::Display) -> Error {
        Error::file(path, format_args!("line {line}: {words}"))
    }

    /// A refusal over a file, a board or a job.
    pub fn refused(about: impl fmt::Display, refusal: Refusal) -> Error {
        Error::denied(format_args!("{about}: {}", told(refusal)))
    }

    /// A refusal over a place that we know better than the library.
    pub fn refused_at(path: &Path, place: &str, refusal: Refusal) -> Error {
        let (number, words) = (refusal.number(), refusal.words());
        Error::denied(format_args!(
            "{}: {place}: refused {number}: {words}",
            shown(path)
        ))
    }

    /// The same, met in a place that has to be named first.
    #[must_use]
    pub fn within(self, place: impl fmt::Display) -> Error {
        Error::new(self.status, format_args!("{place}: {}", self.words))
    }

    /// The same, and what has to be known besides.
    #[must_use]
    pub fn but(self, words: impl fmt::Display) -> Error {
        Error::new(self.status, format_args!("{}{words}", self.words))
    }

    /// Whether other calls use the pool, so that trying again may serve.
    #[must_use]
    pub fn is_in_use(&self) -> bool {
        self.words.ends_with(IN_USE)
    }

    /// The exit status.
    #[must_use]
    pub fn status(&self) -> u8 {
        self.status
    }
}

/// `record 3: refused 31: a tape record outside the rules`.
#[must_use]
pub fn told(refusal: Refusal) -> String {
    let (number, words) = (refusal.number(), refusal.words());
    match refusal.has_index() {
        true => format!("record {}: refused {number}: {words}", refusal.index()),
        false => format!("refused {number}: {words}"),
    }
}

/// A file's name on one line, whatever is in it.
#[must_use]
pub fn shown(path: &Path) -> String {
    plain(&path.to_string_lossy())
}

/// A text on one line: control characters as their escapes.
#[must_use]
pub fn plain(text: &str) -> String {
    let letters = text.chars().map(|letter| match letter.is_control() {
        true => letter.escape_default().to_string(),
        false => letter.to_string(),
    });
    letters.collect()
}

impl fmt::Display for Error {
    fn fmt(&self, f: &mut fmt::Formatter<'_>) -> fmt::Result {
        f.write_str(&plain(&self.words))
    }
}

impl std::error::Error for Error {}

impl From<rusqlite::Error> for Error {
    fn from(error: rusqlite::Error) -> Error {
        use rusqlite::ErrorCode::{DatabaseBusy, DatabaseLocked, NotADatabase};
        match error.sqlite_error_code() {
            Some(DatabaseBusy | DatabaseLocked) => Error::wrong(IN_USE),
            Some(NotADatabase) => Error::wrong("this is no pool"),
            _ => Error::wrong(format_args!("the pool: {error}")),
        }
    }
}
