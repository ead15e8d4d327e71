//! Clients over a pseudo-terminal, as programs expect that know serial lines only.
//!
//! Nothing tells that a client has come but its first byte; that it has gone is told
//! by a hang-up, once the last has closed the line.

use super::door::Door;
use super::end::End;
use super::system;
use super::wire::{Stop, Waited};
use crate::error::Error;
use crate::files::plain;
use rustix::fs::OFlags;
use rustix::io::PollFlags;
use rustix::termios::{OptionalActions, QueueSelector};
use rustix::termios::{cfmakeraw, tcflush, tcgetattr, tcsetattr};
use std::fs::{File, OpenOptions};
use std::io::{self, Read};
use std::os::unix::fs::OpenOptionsExt;
use std::path::{Path, PathBuf};
use std::time::Duration;

/// How often a line that nobody has open is looked at: a hang-up cannot be waited
/// out.
const LOOK: Duration = Duration::from_millis(50);

/// A pseudo-terminal.
#[derive(Debug)]
pub struct Pty {
    line: File,
    /// The side that clients open.
    path: PathBuf,
    name: String,
}

fn open(path: &Path) -> io::Result<File> {
    let flags = OFlags::NOCTTY | OFlags::NONBLOCK;
    let mut options = OpenOptions::new();
    options
        .read(true)
        .write(true)
        .custom_flags(flags.bits() as i32);
    options.open(path)
}

impl Pty {
    /// A new one, ready for a client.
    ///
    /// # Errors
    ///
    /// Where the system has none to give.
    pub fn open() -> Result<Pty, Error> {
        let opened = open(Path::new("/dev/ptmx")).and_then(|line| {
            let path = system::opened(&line)?;
            let name = path.display().to_string();
            let pty = Pty { line, path, name };
            pty.tidy()?;
            Ok(pty)
        });
        opened.map_err(|error| closed("a pseudo-terminal", &error))
    }

    /// As a client expects it: bytes go through as they are, and none is left of what
    /// the client before was answered.
    fn tidy(&self) -> io::Result<()> {
        let side = open(&self.path)?;
        let mut settings = tcgetattr(&side)?;
        cfmakeraw(&mut settings);
        tcsetattr(&side, OptionalActions::Now, &settings)?;
        Ok(tcflush(&side, QueueSelector::IFlush)?)
    }

    /// Waits for a byte or a hang-up; none, if the server is told to end before.
    fn look(&self, stop: &Stop) -> io::Result<Option<PollFlags>> {
        match stop.wait(&self.line, PollFlags::IN, None)? {
            Waited::Ready(there) => Ok(Some(there)),
            Waited::Late | Waited::Stopped => Ok(None),
        }
    }

    fn first_byte(&self, stop: &Stop) -> io::Result<Option<File>> {
        while let Some(there) = self.look(stop)? {
            if there.contains(PollFlags::IN) {
                return self.line.try_clone().map(Some);
            }
            if stop.pause(LOOK)? {
                break;
            }
        }
        Ok(None)
    }

    /// Drops what a client that has to go still sends, until it does.
    fn last_byte(&self, stop: &Stop) -> io::Result<()> {
        let mut rest = [0; 4_096];
        while let Some(there) = self.look(stop)? {
            let gone = |_| there.contains(PollFlags::HUP);
            if (&self.line).read(&mut rest).is_err_and(gone) {
                break;
            }
        }
        Ok(())
    }
}

fn closed(name: &str, error: &io::Error) -> Error {
    Error::wrong(format_args!("{name}: cannot be served: {}", plain(error)))
}

impl Door for Pty {
    fn name(&self) -> &str {
        &self.name
    }

    fn next(&mut self, stop: &Stop) -> Result<Option<File>, Error> {
        let client = self.first_byte(stop);
        client.map_err(|error| closed(&self.name, &error))
    }

    fn part(&mut self, stop: &Stop, end: End) -> Result<(), Error> {
        let parted = match end {
            End::Gone | End::Cut => self.tidy(),
            _ if end.is_final() => self.last_byte(stop).and_then(|()| self.tidy()),
            _ => Ok(()),
        };
        parted.map_err(|error| closed(&self.name, &error))
    }
}

#[cfg(test)]
mod tests {
    use super::*;
    use crate::serve::wire::Wire;
    use std::io::Write;
    use std::os::fd::OwnedFd;
    use std::os::unix::net::UnixStream;

    const SOON: Duration = Duration::from_secs(20);

    /// As many bytes as `all` has, once they are there.
    fn taken(stop: &Stop, mut client: &File, all: &[u8]) -> Vec<u8> {
        let mut bytes = Vec::new();
        while bytes.len() < all.len() {
            let waited = stop.wait(client, PollFlags::IN, Some(SOON));
            assert!(matches!(waited, Ok(Waited::Ready(_))), "{bytes:02X?}");
            let mut some = vec![0; all.len() - bytes.len()];
            let count = client.read(&mut some).expect("bytes");
            bytes.extend(&some[..count]);
        }
        bytes
    }

    #[test]
    fn bytes_go_through_as_they_are_and_none_is_left_for_the_next() {
        let (_ends, stop) = UnixStream::pair().expect("a pair");
        let stop = Stop::of(OwnedFd::from(stop).into());
        let mut pty = Pty::open().expect("a pseudo-terminal");
        // Among them those that a terminal makes something else of.
        let all: Vec<u8> = (0..=255).collect();
        for _ in 0..3 {
            let mut client = open(&pty.path).expect("opened");
            client.write_all(&all).expect("sent");
            let file = pty.next(&stop).expect("a line").expect("a client");
            assert_eq!(taken(&stop, &file, &all), all);
            let wire = Wire {
                file,
                stop: &stop,
                idle: SOON,
            };
            wire.say(&all).expect("said");
            assert_eq!(taken(&stop, &client, &all), all);
            wire.say(b"for nobody").expect("said");
            drop(client);
            assert_eq!(wire.hear(&mut [0]), Err(End::Gone));
            pty.part(&stop, End::Gone).expect("parted");
        }
    }

    #[test]
    fn a_client_that_has_to_go_is_not_heard() {
        let (_ends, stop) = UnixStream::pair().expect("a pair");
        let stop = Stop::of(OwnedFd::from(stop).into());
        let mut pty = Pty::open().expect("a pseudo-terminal");
        let mut client = open(&pty.path).expect("opened");
        client.write_all(&[0xEE; 2_000]).expect("sent");
        drop(client);
        pty.part(&stop, End::Strange).expect("parted");
        let mut client = open(&pty.path).expect("opened");
        client.write_all(&[0x10]).expect("sent");
        let file = pty.next(&stop).expect("a line").expect("a client");
        assert_eq!(taken(&stop, &file, &[0x10]), [0x10]);
    }

    #[test]
    fn a_server_that_is_told_to_end_waits_for_nobody() {
        let (mut ends, stop) = UnixStream::pair().expect("a pair");
        let stop = Stop::of(OwnedFd::from(stop).into());
        let mut pty = Pty::open().expect("a pseudo-terminal");
        ends.write_all(&[0]).expect("told");
        assert!(pty.next(&stop).expect("no fault").is_none());
    }
}
