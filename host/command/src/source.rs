//! A file that is read later, when the book is held: looked at first, and read
//! at once where it can be read only once, so that nobody waits for a pipe.

use crate::error::Error;
use crate::files::{self, Identity};
use std::borrow::Cow;
use std::path::{Path, PathBuf};

/// A file of at most so many bytes.
#[derive(Clone, Debug, PartialEq, Eq)]
pub struct Source {
    path: PathBuf,
    most: usize,
    /// Which file it is; `-` is none.
    pub identity: Option<Identity>,
    /// The bytes of `-`, a pipe or a device.
    once: Option<Vec<u8>>,
}

impl Source {
    /// Looks at a file. A regular one is opened and measured; `-` and whatever
    /// else there is, is read.
    ///
    /// # Errors
    ///
    /// Where it cannot be read, or has more bytes.
    pub fn look(path: &Path, most: usize) -> Result<Source, Error> {
        let there = files::there(path)?;
        let regular = there.as_ref().is_some_and(std::fs::Metadata::is_file);
        let once = match regular {
            true => files::measured(path, most).map(|()| None)?,
            false => Some(files::read(path, most)?),
        };
        Ok(Source {
            path: path.to_path_buf(),
            most,
            identity: there.as_ref().map(files::identity),
            once,
        })
    }

    /// Its name.
    #[must_use]
    pub fn path(&self) -> &Path {
        &self.path
    }

    /// Its bytes.
    ///
    /// # Errors
    ///
    /// Where it cannot be read, or has more bytes by now.
    pub fn bytes(&self) -> Result<Cow<'_, [u8]>, Error> {
        match &self.once {
            Some(bytes) => Ok(Cow::Borrowed(bytes)),
            None => files::read(&self.path, self.most).map(Cow::Owned),
        }
    }
}
