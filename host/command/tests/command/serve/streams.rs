//! Streams that no good client sends: garbage, cut, slow, silent, unread.

use super::client::{ACK, Client, NAK, NOP, PATIENCE, Q_CMDMAP, SYNCNOP, header, spiop};
use super::server::{Server, Session};
use super::{meter, plays, records};
use crate::common::Folder;
use std::io::Write;
use std::net::TcpStream;
use std::time::{Duration, Instant};

/// A write enable, a program, its end awaited, and then a byte more.
fn small_session() -> Vec<u8> {
    let program = spiop(&[2, 0, 0, 0, 0x5A], 0);
    let status = spiop(&[0x05], 1);
    [&spiop(&[0x06], 0), &program, &status, &status, &[NOP][..]].concat()
}

/// Garbage of a fixed seed.
fn garbage(seed: u64, count: usize) -> Vec<u8> {
    let mut state = seed.wrapping_mul(0x9E37_79B9_7F4A_7C15) | 1;
    let mut next = || {
        state ^= state << 13;
        state ^= state >> 7;
        state ^= state << 17;
        (state >> 32) as u8
    };
    (0..count).map(|_| next()).collect()
}

/// That the server is well: it answers a new client as if nothing had been.
fn serves_on(server: &mut Server) {
    let mut client = server.client();
    client.answers(&[0x01], &[ACK, 1, 0]);
    assert_eq!(client.spi(&[0x9F], 3), [0xF8, 0x32, 0x15]);
    client.leave();
    assert_eq!(server.session(), Session::new(1, [0; 4]));
    assert!(server.runs());
}

/// As flashrom does it: NOPs, then SYNCNOP until NAK and ACK come together.
#[test]
fn a_client_finds_its_place_after_garbage() {
    let folder = Folder::with_month("serve-sync");
    let mut server = Server::start(&folder, "");
    let mut client = server.client();
    // The last one of the garbage is an operation that waits for five bytes more.
    client.send(&[0xFF, 0xEE, 0x42, 0x99]);
    client.send(&header(5, 0));
    client.send(&[NOP; 8]);
    assert_eq!(client.take(8), [NAK, NAK, NAK, NAK, ACK, ACK, ACK, ACK]);
    client.send(&[SYNCNOP, SYNCNOP]);
    assert_eq!(client.take(2 + 2), [NAK, ACK, NAK, ACK]);
    assert_eq!(client.spi(&[0x9F], 3), [0xF8, 0x32, 0x15]);
    client.leave();
    // The five NOPs were a transaction: five bytes 00, which the chip does not know.
    assert_eq!(server.session(), Session::new(2, [0, 0, 0, 1]));
    serves_on(&mut server);
    folder.whole("2026-11");
}

#[test]
fn sixteen_unknown_in_a_row_are_no_serprog() {
    let folder = Folder::with_month("serve-sixteen");
    let mut server = Server::start(&folder, "");
    let mut client = server.client();
    client.spi(&[0x77], 0);
    for _ in 0..3 {
        client.answers(&[0xF0; 15], &[NAK; 15]);
    }
    client.send(&[0xF0; 16]);
    assert_eq!(client.rest(), [NAK; 16]);
    let session = server.session_ended("what came is no serprog");
    assert_eq!(session, Session::new(1, [0, 0, 0, 1]));
    serves_on(&mut server);
    folder.whole("2026-11");
}

/// Whatever comes, the session ends, and what was done in it is in the book.
#[test]
fn garbage_ends_in_time() {
    let folder = Folder::with_month("serve-garbage");
    let mut server = Server::start(&folder, "");
    let mut sum = [0; 4];
    for seed in 0..24 {
        let mut client = server.client();
        // The server may have gone before all of it is sent.
        for byte in garbage(seed, 400).chunks(50) {
            let _ = client.wire.write(byte);
        }
        client.leave();
        let rise = server.session().rise;
        sum = [0, 1, 2, 3].map(|place| sum[place] + rise[place]);
        assert_eq!(meter(&folder, "b"), sum, "seed {seed}");
    }
    serves_on(&mut server);
    folder.whole("2026-11");
}

/// The stream ends after each byte in turn: what was whole before it is done and
/// kept, and nothing else.
#[test]
fn a_stream_cut_at_every_byte() {
    let folder = Folder::with_month("serve-cut");
    let stream = small_session();
    let mut server = Server::start(&folder, "");
    let mut kept = Vec::new();
    for cut in 0..=stream.len() {
        // The last bytes of the four operations.
        let whole = [8, 20, 28, 36].iter().filter(|end| **end <= cut).count();
        let answers = [0, 1, 2, 4, 6][whole] + cut.saturating_sub(36);
        let mut client = server.client();
        client.send(&stream[..cut]);
        assert_eq!(client.leave().len(), answers, "cut {cut}");
        let session = server.session();
        let program = u64::from(whole > 1);
        assert_eq!(
            session,
            Session::new(whole as u64, [program, 0, 0, 0]),
            "cut {cut}"
        );
        if whole > 0 {
            kept.push(["", "06", "06 02", "06 02 05 F", "06 02 05 F 05"][whole].to_string());
        }
        // From the same start each time.
        folder.served("transact b power-cycle --wait 0");
        kept.push("P".to_string());
    }
    assert_eq!(records(&folder), kept);
    folder.whole("2026-11");
}

/// The same by clients that vanish with an answer unread.
#[test]
fn a_client_that_vanishes_loses_nothing() {
    let folder = Folder::with_month("serve-vanish");
    let mut server = Server::start(&folder, "");
    for place in 0..8 {
        let mut client = server.client();
        client.write(&[2, 0, place, 0, place]);
        client.polled();
        client.vanish();
        assert_eq!(server.session(), Session::new(4, [1, 0, 0, 0]));
    }
    // One that goes at once, and one that goes inside an operation.
    server.client().vanish();
    assert_eq!(server.session(), Session::new(0, [0; 4]));
    let mut client = server.client();
    client.spi(&[0x77], 0);
    client.send(&header(200, 0));
    drop(client);
    let session = server.session_ended("the client went inside a command");
    assert_eq!(session, Session::new(1, [0, 0, 0, 1]));
    assert_eq!(meter(&folder, "b"), [8, 0, 0, 1]);
    assert_eq!(plays(&folder), 9);
    let array = folder.array("b");
    assert!((0..8).all(|place| array[place * 256] == place as u8));
    serves_on(&mut server);
    folder.whole("2026-11");
}

/// Byte by byte, for longer than a silence may last: slow is not silent.
#[test]
fn a_slow_client_is_served() {
    let folder = Folder::with_month("serve-slow");
    let mut server = Server::start(&folder, "--idle 3");
    let mut client = server.client();
    let begun = Instant::now();
    for byte in small_session() {
        client.send(&[byte]);
        // The slowness itself.
        std::thread::sleep(Duration::from_millis(100));
    }
    assert!(begun.elapsed() > Duration::from_millis(3_500));
    assert_eq!(client.take(7), [ACK, ACK, ACK, 3, ACK, 0, ACK]);
    client.leave();
    assert_eq!(server.session(), Session::new(4, [1, 0, 0, 0]));
    folder.whole("2026-11");
}

/// A session in which the client does something and then this; it must end by
/// itself, not before its time and not long after.
fn ends_idle(name: &str, then: impl Fn(&mut Client<TcpStream>)) {
    let folder = Folder::with_month(name);
    let mut server = Server::start(&folder, "--idle 1");
    let mut client = server.client();
    client.write(&[2, 0, 0, 0, 0x5A]);
    let begun = Instant::now();
    then(&mut client);
    let session = server.session_ended("the client was silent for too long");
    assert_eq!(session, Session::new(2, [1, 0, 0, 0]));
    let took = begun.elapsed();
    assert!(took > Duration::from_millis(900), "{took:?}");
    assert!(took < PATIENCE / 3, "{took:?}");
    assert_eq!(records(&folder), ["06 02"]);
    // Nothing is held any longer, and the next one is served.
    folder.served("transact b finish --wait 0");
    client.rest();
    serves_on(&mut server);
    folder.whole("2026-11");
}

#[test]
fn a_silent_client_ends() {
    ends_idle("serve-silent", |_| {});
}

#[test]
fn a_client_silent_inside_a_command_ends() {
    ends_idle("serve-half", |client| {
        client.send(&spiop(&[2, 0, 0], 4)[..9])
    });
}

/// One that asks and asks and never listens, until nothing more can be sent.
pub fn never_reads(client: &mut Client<TcpStream>) {
    let begun = Instant::now();
    let mut written = begun;
    while written.elapsed() < Duration::from_millis(300) {
        assert!(
            begun.elapsed() < PATIENCE / 3,
            "somebody hoards the answers"
        );
        if client.wire.write(&[Q_CMDMAP; 0x1_0000]).is_ok() {
            written = Instant::now();
        }
    }
}

#[test]
fn a_client_that_never_reads_ends() {
    ends_idle("serve-unread", never_reads);
}
