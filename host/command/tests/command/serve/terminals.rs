//! A pseudo-terminal in place of a port, opened as the file that it is.

use super::client::{ACK, Client, NAK, header, spiop};
use super::server::{Server, Session};
use super::{plays, records};
use crate::common::Folder;

#[test]
fn sessions_over_a_terminal() {
    let folder = Folder::with_month("serve-pty");
    let mut server = Server::start(&folder, "--pty");
    assert!(server.place.starts_with("/dev/pts/"), "{}", server.place);
    let mut client = Client::open(&server.place);
    client.answers(&[0x03], b"\x06tunebriar\0\0\0\0\0\0\0");
    // Every byte there is, those too that steer a terminal.
    let page: Vec<u8> = (0..=255).collect();
    client.write(&[&[2, 0, 0, 0][..], &page].concat());
    assert_eq!(client.polled(), 1);
    assert_eq!(client.spi(&[3, 0, 0, 0], 256), page);
    for code in 0x19..=0xFF {
        client.answers(&[code], &[NAK]);
    }
    drop(client);
    assert_eq!(server.session(), Session::new(5, [1, 0, 0, 0]));
    // The next one that opens it is the next session.
    let mut client = Client::open(&server.place);
    assert_eq!(client.spi(&[0x9F], 3), [0xF8, 0x32, 0x15]);
    drop(client);
    assert_eq!(server.session(), Session::new(1, [0; 4]));
    assert_eq!(records(&folder), ["06 02 05 F 05 03", "9F"]);
    server.signal("TERM");
    server.ended_well();
    folder.whole("2026-11");
}

/// The last closer hangs up, not the first.
#[test]
fn a_terminal_is_open_while_anyone_has_it_open() {
    let folder = Folder::with_month("serve-pty-last");
    let mut server = Server::start(&folder, "--pty --once");
    let mut client = Client::open(&server.place);
    let other = Client::open(&server.place);
    client.spi(&[0x77], 1);
    drop(other);
    client.spi(&[0x77], 1);
    drop(client);
    assert_eq!(server.session(), Session::new(2, [0, 0, 0, 2]));
    server.ended_well();
    folder.whole("2026-11");
}

/// A session begins at the first byte: a terminal that is only open holds nothing.
#[test]
fn an_open_terminal_holds_nothing() {
    let folder = Folder::with_month("serve-pty-open");
    let mut server = Server::start(&folder, "--pty --once");
    let mut client = Client::open(&server.place);
    folder.served("transact b 77 --wait 0");
    client.answers(&[0x01], &[ACK, 1, 0]);
    let ran = folder.run("transact b 77 --wait 0");
    assert_eq!(ran.status, 2, "{ran:?}");
    drop(client);
    assert_eq!(server.session(), Session::new(0, [0; 4]));
    server.ended_well();
    assert_eq!(plays(&folder), 1);
}

/// What is cut inside an operation is not done; the next one begins afresh.
#[test]
fn a_cut_terminal() {
    let folder = Folder::with_month("serve-pty-cut");
    let mut server = Server::start(&folder, "--pty");
    let operation = spiop(&[2, 0, 0, 0, 1], 0);
    for cut in 1..operation.len() {
        let mut client = Client::open(&server.place);
        client.spi(&[0x06], 0);
        client.send(&operation[..cut]);
        drop(client);
        assert_eq!(server.session(), Session::new(1, [0; 4]), "cut {cut}");
    }
    assert_eq!(records(&folder), ["06"; 11]);
    folder.whole("2026-11");
}

#[test]
fn a_silent_terminal_ends() {
    let folder = Folder::with_month("serve-pty-silent");
    let mut server = Server::start(&folder, "--pty --idle 1");
    let mut client = Client::open(&server.place);
    client.spi(&[0x77], 0);
    client.send(&header(5, 0));
    assert_eq!(server.session(), Session::new(1, [0, 0, 0, 1]));
    folder.served("transact b 77 --wait 0");
    drop(client);
    let mut client = Client::open(&server.place);
    client.answers(&[0x01], &[ACK, 1, 0]);
    drop(client);
    assert_eq!(server.session(), Session::new(0, [0; 4]));
    folder.whole("2026-11");
}

#[test]
fn a_server_on_a_terminal_is_told_to_end() {
    let folder = Folder::with_month("serve-pty-end");
    for opened in [false, true] {
        let mut server = Server::start(&folder, "--pty");
        let mut client = Client::open(&server.place);
        if opened {
            client.spi(&[0x77], 0);
        }
        server.signal("TERM");
        if opened {
            assert_eq!(server.session(), Session::new(1, [0, 0, 0, 1]));
        }
        server.ended_well();
    }
    assert_eq!(plays(&folder), 1);
}
