//! serprog, version 1: what a client's bytes ask for, and what they are answered.
//!
//! Nothing here waits: a byte goes in, and a whole command comes out with its
//! last byte. Numbers are little-endian.

use crate::tape::LONGEST;

/// It is done.
pub const ACK: u8 = 0x06;
/// It is not.
pub const NAK: u8 = 0x15;

const NOP: u8 = 0x00;
const Q_IFACE: u8 = 0x01;
const Q_CMDMAP: u8 = 0x02;
const Q_PGMNAME: u8 = 0x03;
const Q_SERBUF: u8 = 0x04;
const Q_BUSTYPE: u8 = 0x05;
const Q_CHIPSIZE: u8 = 0x06;
const Q_OPBUF: u8 = 0x07;
const Q_WRNMAXLEN: u8 = 0x08;
const R_BYTE: u8 = 0x09;
const R_NBYTES: u8 = 0x0A;
const O_INIT: u8 = 0x0B;
const O_WRITEB: u8 = 0x0C;
const O_WRITEN: u8 = 0x0D;
const O_DELAY: u8 = 0x0E;
const O_EXEC: u8 = 0x0F;
const SYNCNOP: u8 = 0x10;
const Q_RDNMAXLEN: u8 = 0x11;
const S_BUSTYPE: u8 = 0x12;
const O_SPIOP: u8 = 0x13;
const S_SPI_FREQ: u8 = 0x14;
const S_PIN_STATE: u8 = 0x15;
const S_SPI_CS: u8 = 0x16;
const S_SPI_MODE: u8 = 0x17;
const S_CS_MODE: u8 = 0x18;

/// The commands that an SPI session uses.
const OFFERED: [u8; 14] = [
    NOP,
    Q_IFACE,
    Q_CMDMAP,
    Q_PGMNAME,
    Q_SERBUF,
    Q_BUSTYPE,
    Q_OPBUF,
    Q_WRNMAXLEN,
    SYNCNOP,
    Q_RDNMAXLEN,
    S_BUSTYPE,
    O_SPIOP,
    S_SPI_FREQ,
    S_PIN_STATE,
];

/// The bus that there is, among serprog's flags.
const SPI: u8 = 0x08;
const VERSION: u16 = 1;
const NAME: &[u8; 16] = b"tunebriar\0\0\0\0\0\0\0";
/// As much as can be said: the wire holds a client back, and loses no byte.
const SERIAL_BUFFER: u16 = u16::MAX;
/// One operation is held at a time.
const OPERATION_BUFFER: u16 = LONGEST as u16;
/// The data of one operation. flashrom sends them behind a command and an
/// address of three bytes, in a page program as in a read, and 4 + 256 bytes
/// are just what a tape's record holds.
const DATA: u32 = LONGEST as u32 - 4;

/// A command that has come whole.
#[derive(Debug, PartialEq, Eq)]
pub enum Command {
    /// One that asks nothing of the chip, and its answer.
    Plain(Vec<u8>),
    /// An SPI operation.
    Operation {
        /// The bytes of the transaction, 1 to 260.
        sent: Vec<u8>,
        /// How many of the last that the chip drives are answered.
        read: usize,
    },
    /// An opcode that serprog does not know. The answer is NAK.
    Unknown,
}

/// A client's bytes up to the next whole command.
#[derive(Debug, Default)]
pub struct Parser {
    /// The opcode, and the parameters that it always has.
    head: Vec<u8>,
    /// What follows them, as far as an operation can use it.
    data: Vec<u8>,
    /// How many bytes are still to follow.
    left: usize,
}

impl Parser {
    /// One more byte, and the command that it ends.
    pub fn push(&mut self, byte: u8) -> Option<Command> {
        if self.left > 0 {
            self.left -= 1;
            // What is too long is taken, but not kept.
            if self.data.len() < LONGEST {
                self.data.push(byte);
            }
        } else {
            self.head.push(byte);
            let Some(takes) = takes(self.head[0]) else {
                self.head.clear();
                return Some(Command::Unknown);
            };
            if self.head.len() <= takes {
                return None;
            }
            self.left = follow(&self.head);
        }
        if self.left > 0 {
            return None;
        }
        let whole = std::mem::take(self);
        Some(command(&whole.head, whole.data))
    }

    /// Whether a command has begun.
    #[must_use]
    pub fn inside(&self) -> bool {
        !self.head.is_empty()
    }
}

/// The bytes of a command's parameters, but for those whose number is one of
/// them; nothing for an opcode that serprog does not know. What is not offered
/// is here too: it is read whole before it gets its NAK.
fn takes(opcode: u8) -> Option<usize> {
    match opcode {
        NOP | Q_IFACE | Q_CMDMAP | Q_PGMNAME | Q_SERBUF | Q_BUSTYPE | Q_CHIPSIZE | Q_OPBUF
        | Q_WRNMAXLEN | O_INIT | O_EXEC | SYNCNOP | Q_RDNMAXLEN => Some(0),
        S_BUSTYPE | S_PIN_STATE | S_SPI_CS | S_SPI_MODE | S_CS_MODE => Some(1),
        R_BYTE => Some(3),
        O_WRITEB | O_DELAY | S_SPI_FREQ => Some(4),
        R_NBYTES | O_WRITEN | O_SPIOP => Some(6),
        _ => None,
    }
}

/// How many bytes follow these parameters.
fn follow(head: &[u8]) -> usize {
    match *head {
        [O_SPIOP | O_WRITEN, low, middle, high, ..] => length([low, middle, high]),
        _ => 0,
    }
}

fn length([low, middle, high]: [u8; 3]) -> usize {
    u32::from_le_bytes([low, middle, high, 0]) as usize
}

fn command(head: &[u8], data: Vec<u8>) -> Command {
    match *head {
        [O_SPIOP, s0, s1, s2, r0, r1, r2] => {
            operation(length([s0, s1, s2]), length([r0, r1, r2]), data)
        }
        _ => Command::Plain(answer(head)),
    }
}

fn operation(send: usize, read: usize, mut data: Vec<u8>) -> Command {
    let all = send + read;
    if all == 0 || all > LONGEST {
        return Command::Plain(vec![NAK]);
    }
    data.resize(all, 0);
    Command::Operation { sent: data, read }
}

/// The answer to a command that asks nothing of the chip.
fn answer(head: &[u8]) -> Vec<u8> {
    match *head {
        [NOP] | [S_BUSTYPE, SPI] | [S_PIN_STATE, _] => vec![ACK],
        [SYNCNOP] => vec![NAK, ACK],
        [Q_IFACE] => ack(&VERSION.to_le_bytes()),
        [Q_CMDMAP] => ack(&map()),
        [Q_PGMNAME] => ack(NAME),
        [Q_SERBUF] => ack(&SERIAL_BUFFER.to_le_bytes()),
        [Q_BUSTYPE] => ack(&[SPI]),
        [Q_OPBUF] => ack(&OPERATION_BUFFER.to_le_bytes()),
        [Q_WRNMAXLEN | Q_RDNMAXLEN] => ack(&DATA.to_le_bytes()[..3]),
        // There is no time here, so every clock is kept to.
        [S_SPI_FREQ, ref asked @ ..] if asked != [0; 4] => ack(asked),
        _ => vec![NAK],
    }
}

fn ack(bytes: &[u8]) -> Vec<u8> {
    [&[ACK], bytes].concat()
}

/// A bit for each opcode that is offered.
fn map() -> [u8; 32] {
    let mut map = [0; 32];
    for opcode in OFFERED {
        map[usize::from(opcode / 8)] |= 1 << (opcode % 8);
    }
    map
}

#[cfg(test)]
mod tests;
