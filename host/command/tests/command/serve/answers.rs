//! Every command of serprog and its answer, byte for byte.

use super::client::{ACK, Client, NAK, NOP, header, spiop};
use super::server::{Server, Session};
use super::{meter, plays, records};
use crate::common::Folder;
use std::net::TcpStream;

/// The op codes that are offered.
const OFFERED: [u8; 14] = [
    0x00, 0x01, 0x02, 0x03, 0x04, 0x05, 0x07, 0x08, 0x10, 0x11, 0x12, 0x13, 0x14, 0x15,
];

/// A session on an erased board; what is done in it, and what it came to.
fn session(name: &str, done: impl Fn(&mut Client<TcpStream>)) -> (Folder, Session) {
    let folder = Folder::with_month(name);
    let mut server = Server::start(&folder, "--once");
    let mut client = server.client();
    done(&mut client);
    client.leave();
    let session = server.session();
    server.ended_well();
    folder.whole("2026-11");
    (folder, session)
}

#[test]
fn every_question_and_setting() {
    let mut map = [0; 32];
    for code in OFFERED {
        map[usize::from(code / 8)] |= 1 << (code % 8);
    }
    let (folder, session) = session("serve-answers", |client| {
        client.answers(&[0x00], &[ACK]);
        client.answers(&[0x01], &[ACK, 1, 0]);
        client.answers(&[0x02], &[&[ACK][..], &map].concat());
        client.answers(&[0x03], b"\x06tunebriar\0\0\0\0\0\0\0");
        client.answers(&[0x05], &[ACK, 8]);
        // A page program is 4 + 256 bytes, a read 4 + 256, and 260 is the longest record.
        client.answers(&[0x08], &[ACK, 0, 1, 0]);
        client.answers(&[0x11], &[ACK, 0, 1, 0]);
        client.answers(&[0x10], &[NAK, ACK]);
        client.answers(&[0x12, 8], &[ACK]);
        for bus in [0, 1, 2, 4, 9, 15, 16, 0x88, 0xFF] {
            client.answers(&[0x12, bus], &[NAK]);
        }
        client.answers(&[0x14, 0, 0, 0, 0], &[NAK]);
        for hertz in [1, 1_000_000, u32::MAX] {
            let hertz = hertz.to_le_bytes();
            let told = [&[ACK][..], &hertz].concat();
            client.answers(&[&[0x14][..], &hertz].concat(), &told);
        }
        client.answers(&[0x15, 0], &[ACK]);
        client.answers(&[0x15, 1], &[ACK]);
    });
    assert_eq!(session, Session::new(0, [0; 4]));
    assert_eq!(plays(&folder), 0, "no transaction, no play");
}

/// What is told of the buffers is true: so many bytes may be sent before an
/// answer is read.
#[test]
fn the_buffers_are_as_large_as_told() {
    session("serve-buffers", |client| {
        for question in [0x04, 0x07] {
            client.send(&[question]);
            let told = client.take(3);
            let size = usize::from(u16::from_le_bytes([told[1], told[2]]));
            assert_eq!(told[0], ACK);
            assert!(size >= 260, "{question}: an operation fits: {size}");
            client.answers(&vec![NOP; size], &vec![ACK; size]);
        }
    });
}

#[test]
fn what_is_not_offered_is_nak() {
    session("serve-nak", |client| {
        // Parallel chips, and serprog's later commands: read whole, then NAK.
        let known: [&[u8]; 11] = [
            &[0x06],
            &[0x09, 0, 0, 0],
            &[0x0A, 0, 0, 0, 1, 0, 0],
            &[0x0B],
            &[0x0C, 0, 0, 0, 0],
            &[0x0D, 3, 0, 0, 0, 0, 0, 0, 0, 0],
            &[0x0E, 0, 0, 0, 0],
            &[0x0F],
            &[0x16, 0],
            &[0x17, 0],
            &[0x18, 0],
        ];
        for sent in known {
            client.answers(sent, &[NAK]);
        }
        for code in 0x19..=0xFF {
            client.answers(&[code], &[NAK]);
        }
    });
}

#[test]
fn operations_of_every_length() {
    let (folder, session) = session("serve-lengths", |client| {
        client.answers(&spiop(&[], 0), &[NAK]);
        client.answers(&spiop(&[0x06], 0), &[ACK]);
        client.answers(&spiop(&[], 1), &[ACK, 0xFF]);
        let full = [&[ACK][..], &[0xFF; 256]].concat();
        client.answers(&spiop(&[3, 0, 0, 0], 256), &full);
        let page = [&[2, 0, 0, 0][..], &[0x5A; 256]].concat();
        client.answers(&spiop(&page, 0), &[ACK]);
        client.answers(&spiop(&[0x05], 259), &[&[ACK][..], &[3; 259]].concat());
        // One byte over.
        client.answers(&spiop(&[&page[..], &[0]].concat(), 0), &[NAK]);
        client.answers(&spiop(&page, 1), &[NAK]);
        client.answers(&spiop(&[5], 260), &[NAK]);
        client.answers(&spiop(&[], 261), &[NAK]);
        client.answers(&spiop(&[3, 0, 0, 0], 0xFF_FFFF), &[NAK]);
        client.answers(&spiop(&[], 0xFF_FFFF), &[NAK]);
    });
    assert_eq!(session, Session::new(5, [1, 0, 0, 1]));
    assert_eq!(records(&folder), ["06 00 03 02 05 F"]);
    assert_eq!(meter(&folder, "b"), [1, 0, 0, 1]);
    assert!(folder.array("b")[..256] == [0x5A; 256]);
}

/// Sixteen million bytes are taken and not done, and what follows is.
#[test]
fn the_longest_operation_is_taken_whole() {
    let (folder, _) = session("serve-longest", |client| {
        client.send(&header(0xFF_FFFF, 0xFF_FFFF));
        let some = [0x06; 0x1_0000];
        for _ in 0..255 {
            client.send(&some);
        }
        client.answers(&some[1..], &[NAK]);
        client.answers(&spiop(&[0x04], 0), &[ACK]);
    });
    assert_eq!(records(&folder), ["04"]);
}

#[test]
fn what_the_chip_drives_is_what_is_read() {
    let (folder, session) = session("serve-reads", |client| {
        let page: Vec<u8> = (0..=255).collect();
        client.write(&[&[2, 0x01, 0x23, 0x00][..], &page].concat());
        assert_eq!(client.spi(&[3, 1, 0x23, 0], 4), [0xFF; 4], "busy");
        assert_eq!(client.polled(), 1);
        assert_eq!(client.spi(&[3, 1, 0x23, 0], 256), page);
        assert_eq!(client.spi(&[0x0B, 1, 0x23, 0x10, 0], 2), [0x10, 0x11]);
        assert_eq!(client.spi(&[0x9F], 4), [0xF8, 0x32, 0x15, 0xFF]);
        assert_eq!(client.spi(&[0x90, 0, 0, 0], 2), [0xF8, 0x14]);
        assert_eq!(client.spi(&[0xAB, 0, 0, 0], 1), [0x14]);
        // Only the last bytes of what was driven are read.
        assert_eq!(client.spi(&[3, 1, 0x23, 0, 0, 0], 2), [2, 3]);
        assert_eq!(client.spi(&[0x77], 3), [0xFF; 3], "no such command");
        client.spi(&[0x35], 1);
    });
    assert_eq!(session, Session::new(13, [1, 0, 0, 2]));
    assert_eq!(
        records(&folder),
        ["06 02 03 05 F 05 03 0B 9F 90 AB 03 77 35"]
    );
}
