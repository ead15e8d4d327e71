//! The book while a session has it: nobody comes between, and it is kept whole or
//! not at all.

use super::client::{ACK, NAK, SYNCNOP, spiop};
use super::server::{Server, Session, until};
use super::{meter, plays, records};
use crate::common::{Folder, program};
use crate::killed::said;
use std::fs;
use std::net::Shutdown;
use std::process::Stdio;
use std::time::Duration;

#[test]
fn another_call_waits_for_the_session() {
    let folder = Folder::with_month("serve-held");
    folder.write("a.tape", program(0x20, 2));
    let mut server = Server::start(&folder, "");
    // An idle server holds nothing.
    folder.served("play b a.tape --wait 0");
    let mut client = server.client();
    client.spi(&[0x06], 0);
    let in_use = ["the pool is in use by another call, and --wait is over; nothing was changed"];
    for call in ["play b a.tape --wait 0", "month close 2026-11 --wait 0"] {
        let ran = folder.run(call);
        folder.failed(call, &ran, 2, &in_use);
    }
    // What only looks does not wait, and sees what was before.
    assert_eq!(meter(&folder, "b"), [1, 0, 0, 0]);
    let mut waiting = folder.command();
    waiting.args(["play", "b", "a.tape", "--wait", "600"]);
    let mut waiting = waiting.stdout(Stdio::null()).spawn().expect("it runs");
    client.spi(&[2, 0, 0, 0, 1], 0);
    client.polled();
    assert!(waiting.try_wait().expect("a status").is_none());
    client.leave();
    assert_eq!(server.session(), Session::new(4, [1, 0, 0, 0]));
    let status = until("its turn", || waiting.try_wait().expect("a status"));
    assert!(status.success());
    assert_eq!(records(&folder), ["06 02 F", "06 02 05 F 05", "06 02 F"]);
    assert_eq!(meter(&folder, "b"), [3, 0, 0, 0]);
    folder.whole("2026-11");
}

/// What other calls did between two sessions is there in the second.
#[test]
fn a_session_begins_with_the_board_as_it_is() {
    let folder = Folder::with_month("serve-between");
    let mut server = Server::start(&folder, "");
    for (page, byte) in [(0x20, 0x11), (0x21, 0x22)] {
        folder.write("a.tape", program(page, byte));
        folder.served("play b a.tape --wait 0");
        let mut client = server.client();
        assert_eq!(client.spi(&[3, 0, page, 0], 1), [byte]);
        client.leave();
        server.session();
    }
    folder.whole("2026-11");
}

#[test]
fn a_killed_server_leaves_the_book_as_it_was() {
    let folder = Folder::with_month("serve-killed");
    let mut server = Server::start(&folder, "");
    let mut client = server.client();
    client.write(&[2, 0, 0, 0, 1]);
    client.leave();
    server.session();
    let before = said(&folder);
    let mut client = server.client();
    for place in 1..10 {
        client.write(&[2, 0, place, 0, 1]);
        client.polled();
    }
    server.signal("KILL");
    let (status, lines, _) = server.ended();
    assert_eq!((status, lines.len()), (None, 0));
    client.rest();
    assert!(said(&folder) == before);
    folder.served("transact b finish --wait 0");
    folder.whole("2026-11");
}

/// Killed at any moment after its client has gone: the session is in the book
/// whole, or not at all.
#[test]
fn a_server_killed_while_it_keeps() {
    let folder = Folder::with_month("serve-killed-late");
    let pool = folder.bytes("tunebriar.pool");
    let before = said(&folder);
    // A server whose client has just gone, from the same start each time.
    let gone = || {
        let _ = fs::remove_file(folder.path.join("tunebriar.pool-journal"));
        folder.write("tunebriar.pool", &pool);
        let server = Server::start(&folder, "--once");
        let mut client = server.client();
        client.write(&[2, 0, 0, 0, 1]);
        client.polled();
        client.wire.shutdown(Shutdown::Write).expect("no more");
        (server, client)
    };
    // The book, but for the port in the play's name.
    let now = || {
        folder.whole("2026-11");
        let names = "UPDATE play SET name = 'session'";
        folder.book().execute(names, []).expect("changed");
        said(&folder)
    };
    let (mut server, _client) = gone();
    server.session();
    server.ended_well();
    let after = now();
    let (mut lost, mut kept) = (0, 0);
    while kept < 3 {
        let (server, _client) = gone();
        std::thread::sleep(Duration::from_millis(2 * (lost + kept)));
        server.killed();
        let now = now();
        assert!(
            now == before || now == after,
            "{lost} {kept}: a book in between"
        );
        (lost, kept) = (
            lost + u64::from(now == before),
            kept + u64::from(now == after),
        );
        assert!(lost < 200, "never kept");
    }
    assert!(lost > 0, "some were killed before");
}

/// A session that cannot be kept is told as that, and the book is as before.
#[test]
fn a_session_that_cannot_be_kept() {
    let folder = Folder::with_month("serve-unkept");
    let server = Server::start(&folder, "");
    let before = said(&folder);
    let mut client = server.client();
    client.write(&[2, 0, 0, 0, 1]);
    client.polled();
    // Where the book's journal has to lie there is something else.
    let journal = folder.path.join("tunebriar.pool-journal");
    let _ = fs::remove_file(&journal);
    fs::create_dir(&journal).expect("a folder");
    client.leave();
    let (status, _, complaint) = server.ended();
    fs::remove_dir(&journal).expect("removed");
    assert_eq!(status, Some(1), "{complaint}");
    assert_eq!(complaint.lines().count(), 1, "{complaint}");
    assert!(said(&folder) == before);
    folder.whole("2026-11");
}

/// A client that comes while another call has the book is not answered from a
/// board that may change.
#[test]
fn a_session_waits_for_other_calls() {
    let folder = Folder::with_month("serve-waits");
    let mut server = Server::start(&folder, "--wait 600");
    let book = folder.book();
    book.execute_batch("BEGIN IMMEDIATE").expect("taken");
    let mut client = server.client();
    client.send(&spiop(&[0x9F], 3));
    let mut other = folder.command();
    other.args(["play", "b", "none.tape", "--wait", "0"]);
    assert!(!other.output().expect("it runs").status.success());
    assert!(client.hears_nothing());
    book.execute_batch("ROLLBACK").expect("given back");
    assert_eq!(client.take(4), [ACK, 0xF8, 0x32, 0x15]);
    client.leave();
    assert_eq!(server.session(), Session::new(1, [0; 4]));
    folder.whole("2026-11");
}

/// A session that is over waits for whoever still reads the book: nobody could do
/// it again.
#[test]
fn a_session_is_kept_when_its_readers_have_gone() {
    let folder = Folder::with_month("serve-readers");
    let mut server = Server::start(&folder, "--wait 0 --once");
    let mut client = server.client();
    client.write(&[2, 0, 0, 0, 1]);
    client.polled();
    let book = folder.book();
    book.execute_batch("BEGIN; SELECT * FROM play")
        .expect("read");
    client.wire.shutdown(Shutdown::Write).expect("no more");
    // Once the server wants to write, no other process can begin to read.
    until("the end of the session", || {
        let mut look = folder.command();
        let look = look.args(["board", "list", "--wait", "0"]).output();
        (look.expect("it runs").status.code() == Some(2)).then_some(())
    });
    assert!(server.runs());
    book.execute_batch("COMMIT").expect("given back");
    assert_eq!(server.session(), Session::new(4, [1, 0, 0, 0]));
    server.ended_well();
    folder.whole("2026-11");
}

/// And no longer than `--wait`: then there is no session, and the server says so.
#[test]
fn a_session_does_not_wait_for_ever() {
    let folder = Folder::with_month("serve-waited");
    let server = Server::start(&folder, "--wait 0");
    let book = folder.book();
    book.execute_batch("BEGIN IMMEDIATE").expect("taken");
    let mut client = server.client();
    client.send(&[SYNCNOP]);
    assert!(client.rest().is_empty());
    let (status, _, complaint) = server.ended();
    assert_eq!(status, Some(1), "{complaint}");
    assert!(
        complaint.contains("the pool is in use by another call"),
        "{complaint}"
    );
    book.execute_batch("ROLLBACK").expect("given back");
    assert_eq!(plays(&folder), 0);
    folder.whole("2026-11");
}

/// A full count is a refusal: NAK, and the end; what was done before is kept. The
/// tape must have room too, and every record of it takes some.
#[test]
fn a_full_meter_ends_the_session() {
    let folder = Folder::with_month("serve-full");
    for (left, sent) in [(0, 0), (1, 1), (2, 2), (5, 5)] {
        let board = format!("left-{left}");
        folder.board_in(&board, "0", "yes", [0, 0, 0, u32::MAX - left]);
        let mut server = Server::of(&folder, &board, "");
        let mut client = server.client();
        for _ in 0..sent {
            assert_eq!(client.spi(&[0x05], 1), [0]);
        }
        client.send(&spiop(&[0x05], 1));
        assert_eq!(client.rest(), [NAK], "{left}");
        assert_eq!(server.session(), Session::new(sent, [0; 4]));
        assert!(server.runs());
    }
    assert_eq!(plays(&folder), 3);
    folder.whole("2026-11");
}

/// The finish of a write needs its room as well, or the chip would stay busy.
#[test]
fn a_nearly_full_meter_is_still_replayed() {
    let folder = Folder::with_month("serve-nearly");
    for left in 1..6 {
        let board = format!("left-{left}");
        folder.board_in(&board, "0", "yes", [u32::MAX - left, 0, 0, 0]);
        for policy in ["after-status-reads 1", "at-once"] {
            let mut server = Server::of(&folder, &board, &format!("--finish {policy}"));
            let mut client = server.client();
            for operation in [&[0x06][..], &[2, 0, 0, 0, 0], &[5], &[5], &[5]] {
                client.send(&spiop(operation, 0));
            }
            let answers = client.leave();
            let done = answers.iter().take_while(|answer| **answer == ACK).count();
            assert!(
                done < 5 && answers[done..] == [NAK],
                "{left}: {answers:02X?}"
            );
            assert_eq!(server.session().transactions, done as u64, "{left}");
        }
        folder.whole("2026-11");
    }
}
