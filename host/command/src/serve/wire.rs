//! Bytes from a client and to it, and no waiting for ever.

use super::end::End;
use super::system;
use crate::error::Error;
use crate::files::plain;
use rustix::fd::AsFd;
use rustix::io::{Errno, PollFd, PollFlags, poll};
use std::fs::File;
use std::io::{self, ErrorKind, Read, Write};
use std::time::{Duration, Instant};

/// What is readable once the server is told to end.
#[derive(Debug)]
pub struct Stop(File);

/// What was waited for.
#[derive(Clone, Copy, Debug, PartialEq, Eq)]
pub enum Waited {
    /// It is there: reading or writing does not block.
    Ready(PollFlags),
    /// It did not come in time.
    Late,
    /// The server is told to end.
    Stopped,
}

impl Stop {
    /// SIGINT and SIGTERM, which from now on end nothing by themselves.
    ///
    /// # Errors
    ///
    /// Where the system has no means for it.
    pub fn signals() -> Result<Stop, Error> {
        let signals = system::signals();
        signals.map(Stop).map_err(|error| {
            Error::wrong(format_args!("signals cannot be heard: {}", plain(&error)))
        })
    }

    #[cfg(test)]
    pub(super) fn of(stop: File) -> Stop {
        Stop(stop)
    }

    /// Waits for so long; whether the server is told to end meanwhile.
    ///
    /// # Errors
    ///
    /// Where the system cannot wait.
    pub fn pause(&self, long: Duration) -> io::Result<bool> {
        Ok(self.wait(&self.0, PollFlags::IN, Some(long))? == Waited::Stopped)
    }

    /// Waits until something can be read or written, for `most` at the most.
    ///
    /// # Errors
    ///
    /// Where the system cannot wait.
    pub fn wait(
        &self,
        on: impl AsFd,
        what: PollFlags,
        most: Option<Duration>,
    ) -> io::Result<Waited> {
        let until = most.map(|most| Instant::now() + most);
        loop {
            let left = until.map_or(-1, |until| {
                let left = until.saturating_duration_since(Instant::now());
                // rounded up: a wait is never shorter than was asked
                i32::try_from(left.as_nanos().div_ceil(1_000_000)).unwrap_or(i32::MAX)
            });
            let mut both = [PollFd::new(&self.0, PollFlags::IN), PollFd::new(&on, what)];
            match poll(&mut both, left) {
                Err(Errno::INTR) => {}
                Err(error) => return Err(error.into()),
                Ok(0) => return Ok(Waited::Late),
                Ok(_) if !both[0].revents().is_empty() => return Ok(Waited::Stopped),
                Ok(_) => return Ok(Waited::Ready(both[1].revents())),
            }
        }
    }
}

/// A client's line, which does not block.
#[derive(Debug)]
pub struct Wire<'a> {
    /// The line itself.
    pub file: File,
    /// What ends the server.
    pub stop: &'a Stop,
    /// How long a client may be silent.
    pub idle: Duration,
}

impl Wire<'_> {
    /// Hears some bytes, one at least; how many.
    ///
    /// # Errors
    ///
    /// Where none come any more, or not in time.
    pub fn hear(&self, bytes: &mut [u8]) -> Result<usize, End> {
        loop {
            self.wait(PollFlags::IN)?;
            match (&self.file).read(bytes) {
                Ok(0) => return Err(End::Gone),
                Ok(heard) => return Ok(heard),
                Err(error) if !again(&error) => return Err(End::Gone),
                Err(_) => {}
            }
        }
    }

    /// Says all of these bytes.
    ///
    /// # Errors
    ///
    /// Where the client is not there to hear them, or does not in time.
    pub fn say(&self, mut bytes: &[u8]) -> Result<(), End> {
        while !bytes.is_empty() {
            self.wait(PollFlags::OUT)?;
            match (&self.file).write(bytes) {
                Ok(0) => return Err(End::Gone),
                Ok(said) => bytes = &bytes[said..],
                Err(error) if !again(&error) => return Err(End::Gone),
                Err(_) => {}
            }
        }
        Ok(())
    }

    fn wait(&self, what: PollFlags) -> Result<(), End> {
        match self.stop.wait(&self.file, what, Some(self.idle)) {
            Ok(Waited::Ready(_)) => Ok(()),
            Ok(Waited::Late) => Err(End::Silent),
            Ok(Waited::Stopped) => Err(End::Stopped),
            Err(_) => Err(End::Gone),
        }
    }
}

fn again(error: &io::Error) -> bool {
    matches!(error.kind(), ErrorKind::WouldBlock | ErrorKind::Interrupted)
}
