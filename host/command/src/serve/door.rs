//! Where clients come in, one at a time.

use super::end::End;
use super::wire::Stop;
use crate::error::Error;
use std::fs::File;

/// A port, or a pseudo-terminal.
pub trait Door {
    /// Its name, as clients call it.
    fn name(&self) -> &str;

    /// Waits for the next client; its line, which does not block. Nothing, if the
    /// server is told to end before.
    ///
    /// # Errors
    ///
    /// Where the system lets nobody in any more.
    fn next(&mut self, stop: &Stop) -> Result<Option<File>, Error>;

    /// Parts from the client, whose session has ended so.
    ///
    /// # Errors
    ///
    /// Where the system lets nobody in any more.
    fn part(&mut self, stop: &Stop, end: End) -> Result<(), Error>;
}
