//! Clients over TCP, from this machine alone.

use super::door::Door;
use super::end::End;
use super::wire::{Stop, Waited};
use crate::error::Error;
use crate::files::plain;
use rustix::io::PollFlags;
use std::fs::File;
use std::io::{self, Read};
use std::net::{Shutdown, SocketAddr, TcpListener, TcpStream};
use std::os::fd::OwnedFd;
use std::time::{Duration, Instant};

/// How long a client that is sent away may take to see why.
const PARTING: Duration = Duration::from_secs(1);

/// A port.
#[derive(Debug)]
pub struct Listen {
    name: String,
    port: TcpListener,
    client: Option<TcpStream>,
}

/// An address of this machine's own, and a port.
///
/// # Errors
///
/// Words, where it is none.
pub fn address(word: &str) -> Result<SocketAddr, String> {
    let Ok(address) = word.parse::<SocketAddr>() else {
        return Err(format!("'{word}' is no ADDRESS:PORT, as 127.0.0.1:4000"));
    };
    match address.ip().is_loopback() {
        true => Ok(address),
        false => Err(format!(
            "{} is no loopback address, as 127.0.0.1: serprog has no password, and whoever \
             reaches it spends a department's money",
            address.ip()
        )),
    }
}

impl Listen {
    /// Listens there; port 0 lets the system choose.
    ///
    /// # Errors
    ///
    /// Where the port cannot be had.
    pub fn open(address: SocketAddr) -> Result<Listen, Error> {
        let opened = TcpListener::bind(address).and_then(|port| {
            port.set_nonblocking(true)?;
            Ok((port.local_addr()?, port))
        });
        let (name, port) = opened.map_err(|error| closed(&address.to_string(), &error))?;
        Ok(Listen {
            name: name.to_string(),
            port,
            client: None,
        })
    }

    fn accepted(&self) -> io::Result<(TcpStream, File)> {
        let (client, _) = self.port.accept()?;
        client.set_nonblocking(true)?;
        // An answer does not wait for the next.
        client.set_nodelay(true)?;
        let line = OwnedFd::from(client.try_clone()?).into();
        Ok((client, line))
    }
}

/// Whether a client has gone before it was let in.
fn gone(error: &io::Error) -> bool {
    use io::ErrorKind::{ConnectionAborted, ConnectionReset, Interrupted, WouldBlock};
    let kinds = [ConnectionAborted, ConnectionReset, Interrupted, WouldBlock];
    kinds.contains(&error.kind())
}

fn closed(name: &str, error: &io::Error) -> Error {
    Error::wrong(format_args!("{name}: cannot be served: {}", plain(error)))
}

impl Door for Listen {
    fn name(&self) -> &str {
        &self.name
    }

    fn next(&mut self, stop: &Stop) -> Result<Option<File>, Error> {
        loop {
            let waited = stop.wait(&self.port, PollFlags::IN, None);
            if waited.map_err(|error| closed(&self.name, &error))? == Waited::Stopped {
                return Ok(None);
            }
            match self.accepted() {
                Ok((client, line)) => {
                    self.client = Some(client);
                    return Ok(Some(line));
                }
                Err(error) if gone(&error) => {}
                Err(error) => return Err(closed(&self.name, &error)),
            }
        }
    }

    /// What the client still sends is taken for a while: to close a line with bytes
    /// in it would take back the last answers.
    fn part(&mut self, stop: &Stop, end: End) -> Result<(), Error> {
        let Some(mut client) = self.client.take() else {
            return Ok(());
        };
        if !end.is_final() {
            return Ok(());
        }
        let _ = client.shutdown(Shutdown::Write);
        let until = Instant::now() + PARTING;
        let mut rest = [0; 4_096];
        while let left @ 1.. = until.saturating_duration_since(Instant::now()).as_millis() {
            let left = Duration::from_millis(left as u64);
            let waited = stop.wait(&client, PollFlags::IN, Some(left));
            let more = matches!(waited, Ok(Waited::Ready(_)));
            if !more || !client.read(&mut rest).is_ok_and(|count| count > 0) {
                break;
            }
        }
        Ok(())
    }
}

#[cfg(test)]
mod tests {
    use super::*;

    #[test]
    fn only_this_machine_is_let_in() {
        for good in ["127.0.0.1:0", "127.8.9.1:4000", "[::1]:65535"] {
            assert!(address(good).is_ok(), "{good}");
        }
        for bad in [
            "",
            "4000",
            ":4000",
            "localhost:4000",
            "127.0.0.1",
            "127.0.0.1:65536",
            "0.0.0.0:4000",
            "192.168.1.2:0",
            "[::]:4000",
        ] {
            assert!(address(bad).is_err(), "{bad}");
        }
        let words = address("10.0.0.1:1").expect_err("not ours");
        assert!(words.contains("no loopback address"), "{words}");
    }
}
