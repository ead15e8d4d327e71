//! One client at a time, each a play of its own; and how a server ends.

use super::client::{ACK, NAK, SYNCNOP};
use super::server::{Server, Session};
use super::streams::never_reads;
use super::{meter, plays, records};
use crate::common::Folder;

#[test]
fn one_after_the_other() {
    let folder = Folder::with_month("serve-two");
    let mut server = Server::start(&folder, "");
    for place in 0..3 {
        let mut client = server.client();
        client.write(&[2, 0, place, 0, 0x10]);
        client.polled();
        // Each finds what the one before has left.
        let before = client.spi(&[3, 0, 0, 0], 1);
        assert_eq!(before, [0x10]);
        client.leave();
        assert_eq!(server.session(), Session::new(5, [1, 0, 0, 0]));
    }
    assert_eq!(records(&folder), ["06 02 05 F 05 03"; 3]);
    // One that only connects leaves nothing.
    server.client().leave();
    assert_eq!(server.session(), Session::new(0, [0; 4]));
    assert_eq!(plays(&folder), 3);
    folder.whole("2026-11");
}

/// The second waits until the first has gone, and their bytes never mix.
#[test]
fn two_at_once() {
    let folder = Folder::with_month("serve-at-once");
    let mut server = Server::start(&folder, "");
    let mut first = server.client();
    first.spi(&[0x06], 0);
    let mut second = server.client();
    second.send(&[SYNCNOP]);
    second.send(&super::client::spiop(&[0x04], 0));
    for _ in 0..50 {
        first.spi(&[0x05], 1);
        assert!(second.hears_nothing());
    }
    assert_eq!(
        first.spi(&[0x05], 1),
        [2],
        "still enabled: no 04 came between"
    );
    first.leave();
    assert_eq!(server.session(), Session::new(52, [0; 4]));
    assert_eq!(second.take(3), [NAK, ACK, ACK]);
    assert_eq!(second.spi(&[0x05], 1), [0]);
    second.leave();
    assert_eq!(server.session(), Session::new(2, [0; 4]));
    let told = records(&folder);
    assert_eq!(told[1], "04 05");
    assert_eq!(told[0], format!("06{}", " 05".repeat(51)));
    folder.whole("2026-11");
}

#[test]
fn once_is_once() {
    let folder = Folder::with_month("serve-once");
    for transactions in [1, 0] {
        let mut server = Server::start(&folder, "--once");
        let mut client = server.client();
        (0..transactions).for_each(|_| _ = client.spi(&[0x77], 1));
        client.leave();
        assert_eq!(server.session().transactions, transactions);
        server.ended_well();
        assert_eq!(plays(&folder), 1, "the empty one leaves none");
    }
}

#[test]
fn told_to_end_without_a_session() {
    let folder = Folder::with_month("serve-end");
    for signal in ["TERM", "INT"] {
        let server = Server::start(&folder, "");
        server.signal(signal);
        server.ended_well();
    }
    // After a session too.
    let mut server = Server::start(&folder, "");
    server.client().leave();
    server.session();
    server.signal("TERM");
    server.ended_well();
    assert_eq!(plays(&folder), 0);
}

#[test]
fn told_to_end_in_a_session() {
    let folder = Folder::with_month("serve-end-in");
    for (place, signal) in [(1, "TERM"), (2, "INT")] {
        let mut server = Server::start(&folder, "");
        let mut client = server.client();
        client.write(&[2, 0, place, 0, place]);
        client.polled();
        // Inside a command, which is then none.
        client.send(&super::client::spiop(&[0x77], 0)[..5]);
        server.signal(signal);
        client.rest();
        let session = server.session_ended("told to end");
        assert_eq!(session, Session::new(4, [1, 0, 0, 0]));
        server.ended_well();
        assert_eq!(meter(&folder, "b"), [u64::from(place), 0, 0, 0]);
    }
    assert_eq!(records(&folder), ["06 02 05 F 05"; 2]);
    folder.whole("2026-11");
}

/// Not even a client that takes no answer keeps it from that.
#[test]
fn told_to_end_while_nobody_listens() {
    let folder = Folder::with_month("serve-end-deaf");
    let mut server = Server::start(&folder, "");
    let mut client = server.client();
    client.spi(&[0x77], 0);
    never_reads(&mut client);
    let waiting = server.client();
    server.signal("TERM");
    let session = server.session_ended("told to end");
    assert_eq!(session, Session::new(1, [0, 0, 0, 1]));
    server.ended_well();
    drop((client, waiting));
    assert_eq!(records(&folder), ["77"]);
    folder.whole("2026-11");
}
