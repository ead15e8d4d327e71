//! The pool: boards, plays and months in one book, a SQLite file.
//!
//! A call reads or changes the book in one transaction. Those that change it
//! wait for each other, but not for ever.

pub mod bills;
pub mod boards;
pub mod months;
pub mod plays;
pub mod schema;
pub mod seals;
pub mod sectors;
pub mod sound;
pub mod times;
pub mod whole;

use crate::error::Error;
use crate::{clock, files, kept};
use rusqlite::{Connection, OpenFlags, TransactionBehavior};
use std::fs;
use std::os::unix::fs::MetadataExt;
use std::path::{Path, PathBuf};
use std::time::Duration;

/// How a call names its pool, and what it takes from outside.
#[derive(Clone, Debug)]
pub struct Asked {
    /// The pool's file.
    pub path: PathBuf,
    /// How many seconds to wait for other calls.
    pub wait: u32,
    /// The time, where it is not the clock's.
    pub now: Option<String>,
}

/// An open book.
#[derive(Debug)]
pub struct Pool {
    path: PathBuf,
    book: Connection,
    /// The time that the call names, if it does.
    now: Option<String>,
}

impl Asked {
    /// Opens the pool.
    ///
    /// # Errors
    ///
    /// Where it is not there, is no pool, or cannot be opened in time.
    pub fn open(&self) -> Result<Pool, Error> {
        let path = &self.path;
        let metadata = fs::metadata(path).map_err(|error| match error.kind() {
            std::io::ErrorKind::NotFound => Error::file(
                path,
                "there is no such pool; 'tunebriar pool new' makes one",
            ),
            _ => Error::file(
                path,
                format_args!("cannot be read: {}", files::plain(&error)),
            ),
        })?;
        if !metadata.is_file() || metadata.len() == 0 {
            return Err(Error::file(path, "this is no pool"));
        }
        let mut pool = self.connect(OpenFlags::SQLITE_OPEN_READ_WRITE)?;
        schema::bring_up(&mut pool.book).map_err(|error| error.within(path.display()))?;
        Ok(pool)
    }

    /// Makes a pool, with no board in it.
    ///
    /// # Errors
    ///
    /// Where something is there already, or it cannot be made.
    pub fn create(&self) -> Result<Pool, Error> {
        let path = &self.path;
        // A call that was killed before its first transaction leaves no byte.
        if fs::symlink_metadata(path).is_ok_and(|there| !there.is_file() || there.len() > 0) {
            return Err(Error::file(path, "is there already"));
        }
        let flags = OpenFlags::SQLITE_OPEN_READ_WRITE | OpenFlags::SQLITE_OPEN_CREATE;
        let mut pool = self.connect(flags)?;
        schema::lay_out(&mut pool.book).map_err(|error| error.within(path.display()))?;
        Ok(pool)
    }

    /// The pool, made first where there is none.
    ///
    /// # Errors
    ///
    /// Those of `open` and `create`.
    pub fn open_or_create(&self) -> Result<Pool, Error> {
        match fs::metadata(&self.path) {
            Ok(there) if there.len() > 0 => self.open(),
            _ => self.create(),
        }
    }

    fn connect(&self, flags: OpenFlags) -> Result<Pool, Error> {
        let path = self.path.clone();
        let named = |error: rusqlite::Error| Error::from(error).within(self.path.display());
        let book = Connection::open_with_flags(&path, flags | OpenFlags::SQLITE_OPEN_NO_MUTEX)
            .map_err(named)?;
        let metadata = fs::metadata(&path);
        if let Ok(metadata) = &metadata {
            // The journal lies beside one name only.
            if metadata.nlink() > 1 {
                let words = "has a second name, a hard link; a book has one";
                return Err(Error::file(&path, words));
            }
            files::note(metadata);
        }
        book.busy_timeout(Duration::from_secs(self.wait.into()))?;
        let settings = "PRAGMA foreign_keys = ON; PRAGMA synchronous = EXTRA; \
                        PRAGMA cell_size_check = ON; PRAGMA trusted_schema = OFF;";
        book.execute_batch(settings).map_err(named)?;
        let now = self.now.clone();
        clock::now(&book, now.as_deref())?;
        Ok(Pool { path, book, now })
    }
}

impl Pool {
    /// The pool's file.
    #[must_use]
    pub fn path(&self) -> &Path {
        &self.path
    }

    /// Looks at the book as it is at one moment.
    ///
    /// # Errors
    ///
    /// Those of `look`; a book that cannot be read.
    pub fn read<T>(
        &mut self,
        look: impl FnOnce(&Connection) -> Result<T, Error>,
    ) -> Result<T, Error> {
        let book = self.book.transaction()?;
        look(&book)
    }

    /// Changes the book: all that `change` does is there together, or nothing.
    /// The time that it gets is one at which no other call changes the book, so
    /// that times have the order of changes.
    ///
    /// # Errors
    ///
    /// Those of `change`, which then has changed nothing; a book that cannot be
    /// changed, or not in time; a clock that is behind the book.
    pub fn write<T>(
        &mut self,
        change: impl FnOnce(&Connection, &str) -> Result<T, Error>,
    ) -> Result<T, Error> {
        let immediate = TransactionBehavior::Immediate;
        let book = self.book.transaction_with_behavior(immediate)?;
        let now = clock::now(&book, self.now.as_deref())?;
        times::in_order(&book, &now)?;
        let first = plays::next(&book)?;
        let done = change(&book, &now)?;
        let plays = first..plays::next(&book)?;
        book.commit()?;
        kept::note(plays);
        Ok(done)
    }
}
