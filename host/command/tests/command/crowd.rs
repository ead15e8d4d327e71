//! Several calls at once: none loses a count, and none waits for ever.

use crate::common::{Folder, program};
use std::process::Stdio;
use std::time::{Duration, Instant};

#[test]
fn forty_calls_at_once_are_forty_plays() {
    let folder = Folder::with_month("crowd");
    folder.served("board add c --department other");
    let calls = (0..40).map(|place| {
        let board = ["b", "c"][place % 2];
        let mut command = folder.command();
        command
            .args(["transact", board, "77", "--wait", "600"])
            .stdout(Stdio::null());
        command.spawn().expect("it runs")
    });
    for mut call in calls.collect::<Vec<_>>() {
        assert!(call.wait().expect("it ends").success());
    }
    for board in ["b", "c"] {
        let shown = folder.json(&format!("board show {board}"));
        assert_eq!(shown["state"]["meter"]["ignored"], 20);
    }
    folder.whole("2026-11");
}

#[test]
fn months_are_closed_once_by_many() {
    let folder = Folder::with_month("closers");
    let calls = (0..8).map(|_| {
        let mut command = folder.command();
        command
            .args(["month", "close", "2026-11", "--wait", "600"])
            .stdout(Stdio::null())
            .stderr(Stdio::null());
        command.spawn().expect("it runs")
    });
    let calls: Vec<_> = calls.collect();
    let statuses = calls
        .into_iter()
        .map(|mut call| call.wait().expect("it ends").code());
    let served = statuses.filter(|status| *status == Some(0)).count();
    assert_eq!(served, 1);
    folder.whole("2026-11");
}

#[test]
fn a_pool_in_use_is_waited_for_and_then_told() {
    let folder = Folder::with_month("in-use");
    folder.write("a.tape", program(0, 1));
    let book = folder.book();
    book.execute_batch("BEGIN IMMEDIATE").expect("taken");
    let start = Instant::now();
    let says = ["the pool is in use by another call, and --wait is over; nothing was changed"];
    for call in ["play b a.tape --wait 1", "month close 2026-11 --wait 0"] {
        let ran = folder.run(call);
        folder.failed(call, &ran, 2, &says);
    }
    assert!(start.elapsed() < Duration::from_secs(20));
    // What only looks does not wait for one that has not come to its end.
    folder.served("board list --wait 1");
    book.execute_batch("ROLLBACK").expect("given back");
    folder.served("play b a.tape --wait 1");
    folder.whole("2026-11");
}
