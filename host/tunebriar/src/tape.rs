//! Reading a tape, record by record.

use crate::{Refusal, Transaction, ffi};

/// Bytes of a tape's record.
pub const RECORD: usize = 264;

/// A record of a tape.
#[derive(Clone, Copy, Debug, PartialEq, Eq)]
pub enum Record<'a> {
    /// A transaction; its bytes lie in the tape.
    Transaction(Transaction<'a>),
    /// A finish event.
    Finish,
    /// A power cycle.
    PowerCycle,
}

/// What is found at a place of a tape.
#[derive(Clone, Copy, Debug, PartialEq, Eq)]
pub enum Read<'a> {
    /// A record.
    Record(Record<'a>),
    /// No record is left.
    End,
    /// The fault that stops the reading: 30 or 31.
    Fault(Refusal),
}

/// The record at `place`, counted from 0. It looks at that record alone, but
/// for a tape that is not whole records: that is 30 at every place.
///
/// # Panics
///
/// Where the library answers a kind that the header has not, which is proved
/// not to be.
#[must_use]
pub fn read(tape: &[u8], place: u64) -> Read<'_> {
    found(tape, place, &ffi::read(tape.into(), place))
}

fn found<'a>(tape: &'a [u8], place: u64, record: &ffi::Record) -> Read<'a> {
    match (record.kind, record.number) {
        (0, _) => Read::Record(Record::Transaction(transaction(tape, record))),
        (1, _) => Read::Record(Record::Finish),
        (2, _) => Read::Record(Record::PowerCycle),
        (3, _) => Read::End,
        (4, 31) => Read::Fault(Refusal::new(31, place)),
        (4, number) => Read::Fault(Refusal::new(number, 0)),
        (kind, _) => panic!("kind {kind} of a record"),
    }
}

fn transaction<'a>(tape: &'a [u8], record: &ffi::Record) -> Transaction<'a> {
    Transaction {
        bytes: &tape[record.start as usize..][..record.length as usize],
        leftover: record.leftover as u8,
        wp_high: record.wp != 0,
    }
}

/// A tape and a place on it. Reading a record moves the place by one; the end
/// and a fault leave it.
///
/// ```
/// use tunebriar::{Read, Reader, Record};
///
/// let mut tape = [0; 2 * tunebriar::RECORD];
/// tape[..5].copy_from_slice(&[0, 1, 0, 8, 0x06]);
/// tape[264 + 2] = 1;
/// let mut reader = Reader::new(&tape);
/// let Read::Record(Record::Transaction(sent)) = reader.read() else { panic!() };
/// assert_eq!((sent.bytes, sent.leftover, sent.wp_high), (&[0x06][..], 0, true));
/// assert_eq!(reader.read(), Read::Record(Record::Finish));
/// assert_eq!((reader.read(), reader.place()), (Read::End, 2));
/// ```
#[derive(Clone, Copy, Debug)]
pub struct Reader<'a> {
    tape: &'a [u8],
    place: u64,
}

impl<'a> Reader<'a> {
    /// At the tape's first record.
    #[must_use]
    pub fn new(tape: &'a [u8]) -> Reader<'a> {
        Reader { tape, place: 0 }
    }

    /// The place of the next record to be read.
    #[must_use]
    pub fn place(&self) -> u64 {
        self.place
    }

    /// What is at the place; a record moves the place on.
    pub fn read(&mut self) -> Read<'a> {
        let record = ffi::read(self.tape.into(), self.place);
        let read = found(self.tape, self.place, &record);
        self.place = record.next;
        read
    }
}
