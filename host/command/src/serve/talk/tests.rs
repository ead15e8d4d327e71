//! Whole sessions over a pair of sockets, the client's bytes written beforehand.

use super::*;
use crate::serve::finish::Finish;
use crate::serve::session::How;
use crate::serve::wire::Stop;
use std::io::{Read, Write};
use std::net::Shutdown;
use std::os::fd::OwnedFd;
use std::os::unix::net::UnixStream;
use std::time::{Duration, Instant};

const HOW: How = How {
    wp_high: true,
    finish: Finish::AfterStatusReads(1),
    answer_id: None,
};

/// How a client behaves after its last byte.
#[derive(Clone, Copy, PartialEq)]
enum Then {
    Goes,
    Stays,
    EndsTheServer,
}

/// What a session over these bytes comes to: its end, its transactions, and what
/// was answered.
fn talked(bytes: &[u8], then: Then) -> (End, u64, Vec<u8>) {
    let pair = || UnixStream::pair().expect("a pair");
    let ((mut client, server), (mut ends, stop)) = (pair(), pair());
    server.set_nonblocking(true).expect("set");
    client.write_all(bytes).expect("sent");
    match then {
        Then::Goes => client.shutdown(Shutdown::Write).expect("gone"),
        Then::EndsTheServer => ends.write_all(&[0]).expect("told"),
        Then::Stays => {}
    }
    let stop = Stop::of(OwnedFd::from(stop).into());
    let wire = Wire {
        file: OwnedFd::from(server).into(),
        stop: &stop,
        idle: Duration::from_millis(100),
    };
    let mut session = Session::erased(HOW);
    let end = talk(&wire, &mut session);
    drop(wire);
    let mut answers = Vec::new();
    client.read_to_end(&mut answers).expect("answers");
    (end, session.transactions, answers)
}

const JEDEC: &[u8] = &[0x13, 1, 0, 0, 3, 0, 0, 0x9F];

#[test]
fn a_client_asks_and_goes() {
    let bytes = [&[0x10, 0x05], JEDEC, &[0x00]].concat();
    let (end, transactions, answers) = talked(&bytes, Then::Goes);
    assert_eq!((end, transactions), (End::Gone, 1));
    let all = [0x15, 0x06, 0x06, 0x08, 0x06, 0xF8, 0x32, 0x15, 0x06];
    assert_eq!(answers, all);
}

#[test]
fn cut_at_every_byte_it_ends_and_the_rest_is_kept() {
    let bytes = [JEDEC, JEDEC].concat();
    for cut in 0..=bytes.len() {
        let (end, transactions, answers) = talked(&bytes[..cut], Then::Goes);
        let whole = cut / JEDEC.len();
        let clean = cut % JEDEC.len() == 0;
        assert_eq!(end, if clean { End::Gone } else { End::Cut }, "{cut}");
        assert_eq!(transactions as usize, whole, "{cut}");
        assert_eq!(answers, [6, 0xF8, 0x32, 0x15].repeat(whole), "{cut}");
    }
}

#[test]
fn sixteen_unknown_opcodes_in_a_row_are_no_serprog() {
    let (end, _, answers) = talked(&[0xEE; 40], Then::Stays);
    assert_eq!((end, answers), (End::Strange, vec![NAK; 16]));
    let known = [&[0xEE; 15][..], &[0x00], &[0xEE; 15], &[0x06]].concat();
    let (end, _, answers) = talked(&known, Then::Goes);
    assert_eq!(end, End::Gone);
    assert_eq!(answers, [&[NAK; 15][..], &[ACK], &[NAK; 16]].concat());
}

#[test]
fn silence_and_the_server_s_end_end_it() {
    let begun = Instant::now();
    let (end, transactions, _) = talked(&[JEDEC, &[0x13, 1]].concat(), Then::Stays);
    assert_eq!((end, transactions), (End::Silent, 1));
    assert!(begun.elapsed() >= Duration::from_millis(100));
    let (end, ..) = talked(&[], Then::EndsTheServer);
    assert_eq!(end, End::Stopped);
}

#[test]
fn a_client_that_takes_no_answer_is_silent() {
    // More answers than a socket holds.
    let read = [&[0x13, 4, 0, 0, 0, 1, 0, 3, 0, 0, 0][..]].concat();
    let pair = || UnixStream::pair().expect("a pair");
    let ((mut client, server), (_ends, stop)) = (pair(), pair());
    server.set_nonblocking(true).expect("set");
    let stop = Stop::of(OwnedFd::from(stop).into());
    let wire = Wire {
        file: OwnedFd::from(server).into(),
        stop: &stop,
        idle: Duration::from_millis(100),
    };
    client.write_all(&read.repeat(8_000)).expect("sent");
    let mut session = Session::erased(HOW);
    assert_eq!(talk(&wire, &mut session), End::Silent);
    assert!((100..8_000).contains(&session.transactions));
}
