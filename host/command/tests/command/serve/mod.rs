//! `tunebriar serve`, from the outside: what serprog's paper and the issue's
//! form say, over a client of our own. No wait here is without an end.

mod answers;
mod bills;
mod client;
mod finishes;
mod kept;
mod options;
mod sessions;
mod streams;
mod terminals;

pub mod server;

use crate::common::Folder;

/// The four counts of a board's meter.
fn meter(folder: &Folder, board: &str) -> [u64; 4] {
    let shown = folder.json(&format!("board show {board}"));
    counts(&shown["state"]["meter"])
}

/// Four counts told as JSON.
fn counts(meter: &serde_json::Value) -> [u64; 4] {
    ["programs", "erases", "register_writes", "ignored"]
        .map(|name| meter[name].as_u64().expect("a count"))
}

/// The tapes of the month's plays in their order, as files that other calls take.
fn tapes(folder: &Folder) -> Vec<String> {
    folder.served("ledger export 2026-11 plays.csv --tapes tapes --force");
    let ledger = folder.text("plays.csv");
    let rows = ledger.lines().skip(1);
    rows.map(|row| row.split(',').nth(2).expect("a tape").to_string())
        .collect()
}

/// The records of each tape in a line: `06 02 F` is a write enable, a program, a
/// finish.
fn records(folder: &Folder) -> Vec<String> {
    let listed = tapes(folder).into_iter().map(|tape| {
        let listing = folder.served(&format!("list {tape}"));
        let records = listing.lines().map(|line| {
            let words: Vec<&str> = line.split_whitespace().collect();
            if words[1] == "T" { words[2] } else { words[1] }
        });
        records.collect::<Vec<_>>().join(" ")
    });
    listed.collect()
}

/// How many plays are in the book.
fn plays(folder: &Folder) -> u64 {
    let count = "SELECT count(*) FROM play";
    let book = folder.book();
    book.query_row(count, [], |row| row.get(0))
        .expect("a count")
}
