//! When a busy chip finishes: an event by the policy chosen, and on the tape.

use super::client::Client;
use super::server::Server;
use super::{meter, records};
use crate::common::Folder;
use std::net::TcpStream;

/// A session under a policy; the records that it leaves.
fn recorded(name: &str, policy: &str, done: impl Fn(&mut Client<TcpStream>)) -> Vec<String> {
    let folder = Folder::with_month(&format!("serve-finish-{name}"));
    let mut server = Server::start(&folder, &format!("--once {policy}"));
    let mut client = server.client();
    done(&mut client);
    client.leave();
    server.session();
    server.ended_well();
    folder.whole("2026-11");
    records(&folder)
}

#[test]
fn the_status_read_that_is_told_sees_busy_last() {
    for (policy, polls, told) in [
        ("", 1, "06 02 05 F 05"),
        ("--finish after-status-reads", 1, "06 02 05 F 05"),
        ("--finish after-status-reads 1", 1, "06 02 05 F 05"),
        ("--finish after-status-reads 2", 2, "06 02 05 05 F 05"),
        ("--finish after-status-reads 3", 3, "06 02 05 05 05 F 05"),
        ("--finish at-once", 0, "06 02 F 05"),
    ] {
        let name = format!("program-{polls}-{}", policy.len());
        let records = recorded(&name, policy, |client| {
            client.write(&[2, 0, 0, 0, 1]);
            assert_eq!(client.polled(), polls, "{policy}");
        });
        assert_eq!(records, [told], "{policy}");
    }
}

/// Erases and register writes are no other; each rise of BUSY is counted anew.
#[test]
fn every_write_finishes() {
    for (policy, polls, told) in [
        ("2", 2, "06 20 05 05 F 05 06 60 05 05 F 05 06 01 05 05 F 05"),
        ("at-once", 0, "06 20 F 05 06 60 F 05 06 01 F 05"),
    ] {
        let words = match policy {
            "at-once" => "--finish at-once".to_string(),
            reads => format!("--finish after-status-reads {reads}"),
        };
        let records = recorded(&format!("writes-{policy}"), &words, |client| {
            for write in [&[0x20, 0, 0, 0][..], &[0x60], &[0x01, 0x10]] {
                client.write(write);
                assert_eq!(client.polled(), polls, "{write:02X?}");
            }
        });
        assert_eq!(records, [told]);
    }
}

/// 35 is a status read too, however many bytes are read; nothing else is.
#[test]
fn only_status_reads_are_counted() {
    let records = recorded("others", "--finish after-status-reads 3", |client| {
        client.spi(&[0x05], 1);
        client.write(&[2, 0, 0, 0, 1]);
        assert_eq!(client.spi(&[0x03, 0, 0, 0], 1), [0xFF], "busy");
        client.spi(&[0x35], 1);
        assert_eq!(client.spi(&[0x9F], 3), [0xFF; 3], "busy");
        client.spi(&[0x05], 0);
        assert_eq!(client.spi(&[0x05], 2), [3, 3]);
        assert_eq!(client.spi(&[0x05], 1), [0]);
    });
    assert_eq!(records, ["05 06 02 03 35 9F 05 05 F 05"]);
}

/// What the chip ignores makes nobody wait, and finishes nothing.
#[test]
fn an_ignored_write_has_no_finish() {
    for (name, policy) in [("reads", "after-status-reads 1"), ("at-once", "at-once")] {
        let name = format!("ignored-{name}");
        let records = recorded(&name, &format!("--finish {policy}"), |client| {
            client.spi(&[2, 0, 0, 0, 1], 0);
            assert_eq!(client.polled(), 0);
            client.spi(&[0x06], 0);
            client.spi(&[0x20, 0, 0], 0);
            assert_eq!(client.polled(), 0);
        });
        assert_eq!(records, ["02 05 06 20 05"]);
    }
}

/// A client that goes while the chip is busy leaves it so; the next one's status
/// reads finish it, by any policy.
#[test]
fn a_chip_left_busy_is_finished_by_the_next() {
    for (name, policy) in [("reads", ""), ("at-once", "--finish at-once")] {
        let folder = Folder::with_month(&format!("serve-left-busy-{name}"));
        let mut server = Server::start(&folder, "--once");
        let mut client = server.client();
        client.write(&[2, 0, 0, 0, 1]);
        client.leave();
        server.session();
        server.ended_well();
        assert_eq!(folder.json("board show b")["state"]["status"], 3);
        let mut server = Server::start(&folder, policy);
        let mut client = server.client();
        assert_eq!(client.polled(), 1, "{policy}");
        client.leave();
        server.session();
        assert_eq!(records(&folder), ["06 02", "05 F 05"], "{policy}");
        assert_eq!(meter(&folder, "b"), [1, 0, 0, 0]);
        folder.whole("2026-11");
    }
}
