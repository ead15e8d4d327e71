//! A serprog client of our own, over a socket or a terminal that does not block.

use std::fs::{File, OpenOptions};
use std::io::{self, ErrorKind, Read, Write};
use std::net::{Shutdown, TcpStream};
use std::os::unix::fs::OpenOptionsExt;
use std::thread::sleep;
use std::time::{Duration, Instant};

pub const ACK: u8 = 0x06;
pub const NAK: u8 = 0x15;
pub const NOP: u8 = 0x00;
pub const SYNCNOP: u8 = 0x10;
pub const Q_CMDMAP: u8 = 0x02;

/// Longer than anything takes here, on an emulated machine too.
pub const PATIENCE: Duration = Duration::from_secs(60);

/// Linux's O_NONBLOCK and O_NOCTTY: no read waits, and no terminal becomes ours.
const UNTIED: i32 = 0o4000 | 0o400;

/// Tries until it is ready, and no longer than `PATIENCE`.
fn patiently<T>(mut attempt: impl FnMut() -> io::Result<T>) -> io::Result<T> {
    let start = Instant::now();
    loop {
        match attempt() {
            Err(error) if error.kind() == ErrorKind::WouldBlock && start.elapsed() < PATIENCE => {
                sleep(Duration::from_millis(1));
            }
            other => return other,
        }
    }
}

/// An O_SPIOP: so many bytes to send, so many to read.
pub fn spiop(sent: &[u8], read: usize) -> Vec<u8> {
    [&header(sent.len(), read)[..], sent].concat()
}

/// What stands before an O_SPIOP's bytes.
pub fn header(sent: usize, read: usize) -> Vec<u8> {
    let (sent, read) = (sent.to_le_bytes(), read.to_le_bytes());
    [&[0x13], &sent[..3], &read[..3]].concat()
}

pub struct Client<W> {
    pub wire: W,
}

impl Client<TcpStream> {
    pub fn connect(place: &str) -> Client<TcpStream> {
        let wire = TcpStream::connect(place).expect("a server");
        wire.set_nodelay(true).expect("sent at once");
        wire.set_nonblocking(true).expect("no waiting");
        Client { wire }
    }

    /// Sends no more, and hears the rest.
    pub fn leave(mut self) -> Vec<u8> {
        let _ = self.wire.shutdown(Shutdown::Write);
        self.rest()
    }

    /// Goes without a word while an answer lies unread, which a server sees as a
    /// connection that was reset.
    pub fn vanish(mut self) {
        self.send(&[Q_CMDMAP]);
        patiently(|| self.wire.peek(&mut [0])).expect("an answer");
    }

    /// Whether nothing has come so far.
    pub fn hears_nothing(&self) -> bool {
        let heard = self.wire.peek(&mut [0]);
        heard.is_err_and(|error| error.kind() == ErrorKind::WouldBlock)
    }
}

impl Client<File> {
    pub fn open(place: &str) -> Client<File> {
        let mut options = OpenOptions::new();
        options.read(true).write(true).custom_flags(UNTIED);
        let wire = options.open(place).expect("a terminal");
        Client { wire }
    }
}

impl<W: Read + Write> Client<W> {
    pub fn send(&mut self, bytes: &[u8]) {
        let mut sent = 0;
        while sent < bytes.len() {
            sent += patiently(|| self.wire.write(&bytes[sent..])).expect("taken in time");
        }
    }

    /// The next bytes of an answer, exactly so many.
    pub fn take(&mut self, count: usize) -> Vec<u8> {
        let mut taken = vec![0; count];
        let mut there = 0;
        while there < count {
            let more = patiently(|| self.wire.read(&mut taken[there..]));
            match more {
                Ok(more) if more > 0 => there += more,
                _ => panic!("{more:?} after {:02X?} of {count}", &taken[..there]),
            }
        }
        taken
    }

    /// That these bytes are answered so, and by no byte more.
    pub fn answers(&mut self, sent: &[u8], told: &[u8]) {
        self.send(sent);
        self.send(&[SYNCNOP]);
        let heard = self.take(told.len() + 2);
        let start = &sent[..sent.len().min(16)];
        assert!(
            heard == [told, &[NAK, ACK]].concat(),
            "{start:02X?}: {heard:02X?}"
        );
    }

    /// One transaction that is carried through: what the chip drove for the bytes read.
    pub fn spi(&mut self, sent: &[u8], read: usize) -> Vec<u8> {
        self.send(&spiop(sent, read));
        let heard = self.take(1 + read);
        assert_eq!(heard[0], ACK, "{sent:02X?}");
        heard[1..].to_vec()
    }

    /// A write enable and a write.
    pub fn write(&mut self, sent: &[u8]) {
        self.spi(&[0x06], 0);
        self.spi(sent, 0);
    }

    /// Reads the status until BUSY is 0, as flashrom does: how often it was 1.
    pub fn polled(&mut self) -> usize {
        let seen = (0..100).position(|_| self.spi(&[0x05], 1)[0] & 1 == 0);
        seen.expect("an end of BUSY")
    }

    /// All that comes until the server has closed.
    pub fn rest(&mut self) -> Vec<u8> {
        let (mut rest, mut some) = (Vec::new(), [0; 4096]);
        loop {
            match patiently(|| self.wire.read(&mut some)) {
                Ok(0) => return rest,
                Ok(more) => rest.extend(&some[..more]),
                Err(error) if error.kind() == ErrorKind::WouldBlock => {
                    panic!("still open after {rest:02X?}")
                }
                Err(_) => return rest,
            }
        }
    }
}
