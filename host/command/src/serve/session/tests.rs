//! Operations on a board that is in no book.

use super::*;
use crate::chip::Chip;
use tunebriar::{Read, Reader, Record, SIZE};

const HOW: How = How {
    wp_high: true,
    finish: Finish::AfterStatusReads(1),
    answer_id: None,
};

/// The tape, a letter a record.
fn letters(session: &Session) -> String {
    let mut reader = Reader::new(&session.tape);
    let records = std::iter::from_fn(|| match reader.read() {
        Read::Record(Record::Transaction(_)) => Some('t'),
        Read::Record(Record::Finish) => Some('f'),
        _ => None,
    });
    records.collect()
}

/// That a replay of the tape ends where the session did.
fn replayed(session: &Session, from: State) {
    let mut chip = Chip::erased(from);
    chip.play(&session.tape).expect("a tape");
    assert_eq!(chip.state, session.state);
    assert!(chip.array() == session.array);
}

#[test]
fn a_program_is_done_after_a_status_read() {
    for (finish, reads, tape) in [
        (Finish::AtOnce, &[0x00][..], "ttftt"),
        (Finish::AfterStatusReads(1), &[0x03, 0x00], "tttftt"),
        (Finish::AfterStatusReads(2), &[0x03, 0x03, 0x00], "ttttftt"),
    ] {
        let mut session = Session::erased(How { finish, ..HOW });
        assert_eq!(session.operate(&[0x06], 0), Ok(vec![]));
        assert_eq!(session.operate(&[2, 0, 0x10, 0, 0xA5], 0), Ok(vec![]));
        for &status in reads {
            assert_eq!(session.operate(&[5, 0], 1), Ok(vec![status]));
        }
        let read = session.operate(&[3, 0, 0x10, 0, 0, 0], 2);
        assert_eq!(read, Ok(vec![0xA5, 0xFF]));
        assert_eq!(letters(&session), tape);
        assert_eq!(session.transactions as usize, 3 + reads.len());
        assert_eq!(session.state.meter.programs, 1);
        replayed(&session, State::default());
    }
}

#[test]
fn what_is_ignored_drives_ff_and_is_counted() {
    let mut session = Session::erased(HOW);
    assert_eq!(session.operate(&[0x77, 0, 0], 2), Ok(vec![0xFF; 2]));
    assert_eq!(session.operate(&[2, 0, 0, 0, 1], 1), Ok(vec![0xFF]));
    assert_eq!(session.operate(&[0; 260], 260), Ok(vec![0xFF; 260]));
    assert_eq!(session.state.meter.ignored, 3);
    replayed(&session, State::default());
}

#[test]
fn other_bytes_answer_9f_alone() {
    let answer_id = Some([0xA1, 0x40, 0x15]);
    let mut session = Session::erased(How { answer_id, ..HOW });
    let jedec = session.operate(&[0x9F, 0, 0, 0], 3);
    assert_eq!(jedec, Ok(vec![0xA1, 0x40, 0x15]));
    let longer = session.operate(&[0x9F, 0, 0, 0, 0], 5);
    assert_eq!(longer, Ok(vec![0xFF, 0xA1, 0x40, 0x15, 0xFF]));
    assert_eq!(session.operate(&[0x9F, 0], 1), Ok(vec![0xA1]));
    assert_eq!(session.operate(&[0x9F], 0), Ok(vec![]));
    let maker = session.operate(&[0x90, 0, 0, 0, 0, 0], 2);
    assert_eq!(maker, Ok(vec![0xF8, 0x14]));
    // Asleep it answers nothing, and so nothing is put in its place.
    session.operate(&[0xB9], 0).expect("asleep");
    assert_eq!(session.operate(&[0x9F, 0, 0, 0], 3), Ok(vec![0xFF; 3]));
    let mut plain = Session::erased(HOW);
    let jedec = plain.operate(&[0x9F, 0, 0, 0], 3);
    assert_eq!(jedec, Ok(vec![0xF8, 0x32, 0x15]));
    replayed(&session, State::default());
}

#[test]
fn wp_is_on_the_tape() {
    for wp_high in [true, false] {
        let mut session = Session::erased(How { wp_high, ..HOW });
        session.operate(&[5, 0], 1).expect("a status");
        let Read::Record(Record::Transaction(sent)) = Reader::new(&session.tape).read() else {
            panic!("a record");
        };
        let (bytes, wp) = (sent.bytes, sent.wp_high);
        assert_eq!((bytes, sent.leftover, wp), (&[5, 0][..], 0, wp_high));
    }
}

fn metered(ignored: u32) -> State {
    let meter = Meter {
        ignored,
        ..Meter::default()
    };
    State {
        meter,
        ..State::default()
    }
}

fn seven(result: &Result<Vec<u8>, End>) -> bool {
    matches!(result, Err(End::Refused(refusal)) if refusal.number() == 7)
}

#[test]
fn a_full_meter_ends_it_and_the_tape_can_still_be_replayed() {
    let full = metered(u32::MAX);
    let mut session = Session::of(full, vec![0xFF; SIZE], HOW);
    assert!(seven(&session.operate(&[5, 0], 1)));
    assert!(session.tape.is_empty());

    // Nothing here raises a count, but a replay wants room for each record.
    let start = metered(u32::MAX - 3);
    let mut session = Session::of(start, vec![0xFF; SIZE], HOW);
    for _ in 0..3 {
        assert_eq!(session.operate(&[5, 0], 1), Ok(vec![0]));
    }
    assert!(seven(&session.operate(&[5, 0], 1)));
    replayed(&session, start);
}

#[test]
fn a_finish_without_room_leaves_the_chip_busy() {
    let start = metered(u32::MAX - 2);
    let finish = Finish::AtOnce;
    let mut session = Session::of(start, vec![0xFF; SIZE], How { finish, ..HOW });
    session.operate(&[0x06], 0).expect("enabled");
    session.operate(&[0xC7], 0).expect("erased");
    assert!(session.state.registers.busy());
    assert!(seven(&session.operate(&[5, 0], 1)));
    assert_eq!(letters(&session), "tt");
    replayed(&session, start);
}
