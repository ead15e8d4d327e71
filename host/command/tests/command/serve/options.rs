//! What a server is told when it is started: good words, and bad ones with their
//! message.

use super::client::Client;
use super::server::Server;
use super::{counts, meter, records, tapes};
use crate::common::Folder;
use serde_json::Value;
use std::net::{Ipv4Addr, TcpListener};

#[test]
fn other_bytes_for_9f_alone() {
    let folder = Folder::with_month("serve-id");
    let mut server = Server::start(&folder, "--once --answer-id A14015");
    let told = server.line();
    assert!(told.contains("9F") && told.contains("A1 40 15"), "{told}");
    let mut client = server.client();
    // Whole, in part, from the middle, and past its end.
    assert_eq!(client.spi(&[0x9F], 3), [0xA1, 0x40, 0x15]);
    assert_eq!(client.spi(&[0x9F], 1), [0xA1]);
    assert_eq!(client.spi(&[0x9F, 0, 0], 2), [0x15, 0xFF]);
    assert_eq!(client.spi(&[0x9F], 5), [0xA1, 0x40, 0x15, 0xFF, 0xFF]);
    assert!(client.spi(&[0x9F], 0).is_empty());
    // What else names the chip, and what only looks like 9F.
    assert_eq!(client.spi(&[0x90, 0, 0, 0], 3), [0xF8, 0x14, 0xF8]);
    assert_eq!(client.spi(&[0xAB, 0, 0, 0], 1), [0x14]);
    assert_eq!(client.spi(&[0x03, 0x9F, 0, 0], 3), [0xFF; 3]);
    // A busy chip drives nothing, and nothing is put in its place.
    client.write(&[2, 0, 0, 0, 0xF8, 0x32, 0x15]);
    assert_eq!(client.spi(&[0x9F], 3), [0xFF; 3]);
    client.polled();
    assert_eq!(client.spi(&[3, 0, 0, 0], 3), [0xF8, 0x32, 0x15]);
    client.leave();
    let session = server.session();
    server.ended_well();
    assert_eq!(session.rise, [1, 0, 0, 1]);
    let ids = "9F 9F 9F 9F 9F 90 AB 03";
    assert_eq!(records(&folder), [format!("{ids} 06 02 9F 05 F 05 03")]);
    folder.whole("2026-11");
}

/// With /WP low and SRP0 set a status write is locked; with /WP high it is not.
#[test]
fn the_level_of_wp_is_sent() {
    let folder = Folder::with_month("serve-wp");
    let mut status = Vec::new();
    for (wp, byte) in [
        ("--wp low", 0x84),
        ("--wp low", 0),
        ("--wp high", 0x88),
        ("", 0),
    ] {
        let mut server = Server::start(&folder, &format!("--once {wp}"));
        let mut client = server.client();
        client.write(&[0x01, byte]);
        client.polled();
        status.push(client.spi(&[0x05], 1)[0]);
        client.spi(&[0x04], 0);
        client.leave();
        server.session();
        server.ended_well();
    }
    // The second is ignored: WEL stays as well.
    assert_eq!(status, [0x84, 0x86, 0x88, 0]);
    assert_eq!(meter(&folder, "b"), [0, 0, 3, 1]);
    for (place, level) in ["send wp-low 01 84\n", "send wp-low 01 00\n", "send 01 88\n"]
        .iter()
        .enumerate()
    {
        let tape = tapes(&folder).swap_remove(place);
        folder.served(&format!("tape t.txt {tape} --back --force"));
        assert!(
            folder.text("t.txt").contains(level),
            "{}",
            folder.text("t.txt")
        );
    }
    folder.whole("2026-11");
}

#[test]
fn the_port_that_is_asked_for() {
    let folder = Folder::with_month("serve-port");
    let taken = TcpListener::bind((Ipv4Addr::LOCALHOST, 0)).expect("a port");
    let place = taken.local_addr().expect("an address").to_string();
    says(&folder, &format!("b --listen {place}"), 2, &[&place]);
    drop(taken);
    for asked in [place.as_str(), "127.0.0.1:0", "127.9.9.9:0"] {
        let mut server = Server::start(&folder, &format!("--once --listen {asked}"));
        let host = asked.split(':').next().expect("a host");
        assert!(server.place.starts_with(host), "{}", server.place);
        assert!(!server.place.ends_with(":0"), "{}", server.place);
        Client::connect(&server.place).leave();
        server.session();
        server.ended_well();
    }
}

/// For programs, a line is JSON.
#[test]
fn lines_for_programs() {
    let folder = Folder::with_month("serve-json");
    let mut server = Server::spawn(&folder, "b --once --json --answer-id A14015");
    let mut line = || serde_json::from_str::<Value>(&server.line()).expect("JSON");
    let started = line();
    let place = started["serving"].as_str().expect("a place");
    assert_eq!(started["answer_id"], "A1 40 15", "{started}");
    let mut client = Client::connect(place);
    client.spi(&[0x77], 0);
    client.leave();
    let session = line();
    assert_eq!(
        (&session["transactions"], &session["play"]),
        (&1.into(), &1.into())
    );
    assert_eq!(counts(&session["rise"]), [0, 0, 0, 1], "{session}");
    let (status, rest, complaint) = server.ended();
    assert_eq!((status, complaint.as_str()), (Some(0), ""));
    assert!(rest.is_empty(), "{rest:?}");
}

/// A call that must not serve: its exit status, and one line that says why.
fn says(folder: &Folder, line: &str, status: i32, words: &[&str]) {
    let (ended, lines, complaint) = Server::spawn(folder, line).ended();
    assert_eq!(ended, Some(status), "{line}: {lines:?} {complaint}");
    assert!(lines.is_empty(), "{line}: {lines:?}");
    assert_eq!(complaint.lines().count(), 1, "{line}: {complaint}");
    for word in words {
        assert!(
            complaint.contains(word),
            "{line}: no '{word}' in: {complaint}"
        );
    }
}

#[test]
fn whoever_is_elsewhere_is_not_served() {
    let folder = Folder::with_month("serve-loopback");
    for place in [
        "0.0.0.0:0",
        "[::]:0",
        "192.0.2.1:4025",
        "10.0.0.1:0",
        "128.0.0.1:0",
    ] {
        says(&folder, &format!("b --listen {place}"), 2, &["loopback"]);
    }
}

#[test]
fn words_that_say_nothing() {
    let folder = Folder::with_month("serve-words");
    for (line, word) in [
        ("", "<BOARD>"),
        ("tunebriar.pool", "there is no board 'tunebriar.pool'"),
        ("tunebriar.pool c", "there is no board 'c'"),
        ("other.pool b", "other.pool"),
        ("b --listen", "--listen"),
        ("b --listen here", "'here'"),
        ("b --listen 127.0.0.1", "'127.0.0.1'"),
        ("b --listen 127.0.0.1:70000", "70000"),
        ("b --listen 127.0.0.1:0 --pty", "--pty"),
        ("b --finish", "--finish"),
        ("b --finish soon", "soon"),
        ("b --finish after-status-reads 0", "counts from 1"),
        ("b --finish after-status-reads one", "one"),
        ("b --finish at-once 1", "1"),
        ("b --answer-id", "--answer-id"),
        ("b --answer-id A1401", "A1401"),
        ("b --answer-id A140", "A140"),
        ("b --answer-id A1401500", "A1401500"),
        ("b --answer-id A1401G", "A1401G"),
        ("b --wp up", "high, low"),
        ("b --idle 0", "0"),
        ("b --idle soon", "soon"),
        ("b --once twice", "twice"),
    ] {
        says(&folder, line, 2, &[word]);
    }
    assert!(folder.names() == ["prices.txt", "tunebriar.pool"]);
}

#[test]
fn a_pool_that_is_none() {
    let folder = Folder::new("serve-no-pool");
    says(&folder, "b", 2, &["tunebriar.pool"]);
    folder.write("tunebriar.pool", "no book");
    says(&folder, "b", 2, &["tunebriar.pool"]);
}
