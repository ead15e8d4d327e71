//! What a session cost: what the chip carried out, and its tape says the same.

use super::client::Client;
use super::server::{Server, Session};
use super::{counts, meter, tapes};
use crate::common::Folder;
use serde_json::Value;
use std::net::TcpStream;

/// Something of everything: three programs, two erases, one register write, and
/// four that are ignored.
fn some_of_all(client: &mut Client<TcpStream>) {
    for write in [
        &[0x20, 0, 0x10, 0][..],
        &[2, 0, 0x10, 0xFE, 1, 2, 3, 4],
        &[2, 0, 0x20, 0, 0x55],
        &[0xD8, 1, 0, 0],
        &[2, 1, 0, 0, 0xAA],
        // Setting 17: the top four kilobytes.
        &[0x01, 0x44, 0x00],
    ] {
        client.write(write);
        client.polled();
    }
    client.write(&[2, 0x1F, 0xF0, 0, 0]);
    client.spi(&[0x60], 0);
    client.spi(&[0x04], 0);
    client.spi(&[0x20, 0, 0x10, 0], 0);
    client.spi(&[0x77], 0);
}

/// The four counts of a line of the bill.
fn billed(line: &Value) -> [u64; 4] {
    let three = ["programs", "erases", "register_writes"].map(|name| line[name].as_u64());
    let [programs, erases, writes] = three.map(|count| count.expect("a count"));
    let ignored = line["ignored"]["all"].as_u64().expect("a count");
    [programs, erases, writes, ignored]
}

#[test]
fn a_session_is_billed_as_its_tape_is() {
    let folder = Folder::with_month("serve-bill");
    let mut server = Server::start(&folder, "--once");
    let mut client = server.client();
    some_of_all(&mut client);
    client.leave();
    let rise = [3, 2, 1, 4];
    assert_eq!(server.session(), Session::new(30, rise));
    server.ended_well();
    assert_eq!(meter(&folder, "b"), rise);

    // The tape on a fresh board comes to the same figures, registers and array.
    let tape = tapes(&folder).remove(0);
    folder.served("board add c --department fresh");
    let played = folder.json(&format!("play c {tape}"));
    assert_eq!(counts(&played["plays"][0]["rise"]), rise, "{played}");
    let state = |board: &str| folder.json(&format!("board show {board}"))["state"].clone();
    assert_eq!(state("b"), state("c"));
    assert!(folder.array("b") == folder.array("c"));

    // And the bill has both alike: 3 * 0.02 + 2 * 1.50 + 0.10, the ignored for nothing.
    let bill = folder.json("month bill 2026-11");
    let departments = bill["departments"].as_array().expect("departments");
    assert_eq!(departments.len(), 2);
    for department in departments {
        assert_eq!(billed(department), rise, "{department}");
        assert_eq!(department["amount"], "3.16", "{department}");
    }
    folder.whole("2026-11");
}

/// A month that is closed later has the session in it, sealed like any play.
#[test]
fn a_session_is_in_its_month() {
    let folder = Folder::with_month("serve-month");
    let mut server = Server::start(&folder, "");
    let mut client = server.client();
    some_of_all(&mut client);
    client.leave();
    server.session();
    folder.served("month close 2026-11 --wait 0");
    folder.whole("2026-11");
    let mut client = server.client();
    client.spi(&[0x77], 1);
    client.leave();
    server.session();
    folder.served("month open 2026-12 --prices prices.txt --wait 0");
    folder.whole("2026-11");
    folder.whole("2026-12");
    let bill = folder.json("month bill 2026-12");
    assert_eq!(billed(&bill["departments"][0]), [0, 0, 0, 1], "{bill}");
}

/// What was ignored is told record by record, as of any play.
#[test]
fn a_session_is_explained() {
    let folder = Folder::with_month("serve-explain");
    let mut server = Server::start(&folder, "--once");
    let mut client = server.client();
    client.spi(&[2, 0, 0x21, 0, 3], 0);
    client.spi(&[0x05], 1);
    client.spi(&[0x77], 0);
    client.leave();
    server.session();
    server.ended_well();
    let told = folder.served("explain --play 1");
    for line in [
        "  record 0000  02 page program at 0x002100: 14 not write enabled (WEL was 0)\n",
        "  record 0002  77 no such command: 12 no whole byte, or no such command\n",
        "2 ignored\n",
    ] {
        assert!(told.contains(line), "{line} in {told}");
    }
}
