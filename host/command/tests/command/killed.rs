//! Calls killed at their system calls: the book is whole, and says either what
//! it said before or all of what the call does.

use crate::common::{Folder, NOW, PRICES, SIZE, TUNEBRIAR, program};
use std::fs;
use std::process::{Command, Stdio};
use std::time::{Duration, Instant};

/// The system calls that change a file or a name.
const CHANGES: &str = "pwrite64,fsync,fdatasync,unlink,unlinkat,rename,renameat,renameat2,linkat,\
                       ftruncate";

/// Whether calls can be traced here; elsewhere they are killed by the clock.
fn traced() -> bool {
    let tried = Command::new("strace")
        .args(["-o", "/dev/null", "true"])
        .output();
    tried.is_ok_and(|output| output.status.success())
}

/// Runs a call that is killed at its `place`th change; whether it was.
fn killed(folder: &Folder, words: &[&str], place: usize) -> bool {
    let inject = format!("inject={CHANGES}:signal=KILL:when={place}");
    let mut command = Command::new("strace");
    command.args(["-f", "-o", "/dev/null", "-e", &inject, TUNEBRIAR]);
    command
        .args(words)
        .current_dir(&folder.path)
        .env("TUNEBRIAR_NOW", NOW);
    command.stdout(Stdio::null()).stderr(Stdio::null());
    command
        .status()
        .expect("strace")
        .code()
        .is_none_or(|code| code >= 128)
}

fn timed(folder: &Folder, words: &[&str], place: usize) -> bool {
    let mut command = folder.command();
    command
        .args(words)
        .stdout(Stdio::null())
        .stderr(Stdio::null());
    let mut child = command.spawn().expect("it runs");
    std::thread::sleep(Duration::from_micros(500 * place as u64));
    let _ = child.kill();
    child.wait().expect("it ends").code().is_none() || place < 100
}

/// All that the book says, but for its free pages.
pub fn said(folder: &Folder) -> String {
    let tables = [
        "department",
        "board",
        "sector",
        "month",
        "opening",
        "opening_sector",
        "tape",
        "play",
        "ignored",
    ];
    let book = folder.book();
    let mut all = String::new();
    for table in tables {
        let mut rows = book
            .prepare(&format!("SELECT * FROM {table}"))
            .expect("a table");
        let columns = rows.column_count();
        let mut rows = rows.query([]).expect("rows");
        while let Some(row) = rows.next().expect("a row") {
            for column in 0..columns {
                all += &format!("{:?} ", row.get_ref(column).expect("a value"));
            }
            all.push('\n');
        }
    }
    all
}

/// Kills a call at each of its changes in turn, from the same start each time.
fn every_kill(name: &str, start: &dyn Fn(&Folder), line: &str) {
    let folder = Folder::with_month(name);
    start(&folder);
    let words: Vec<&str> = line.split_whitespace().collect();
    let before = said(&folder);
    let pool = folder.bytes("tunebriar.pool");
    let begun = Instant::now();
    let output = folder.command().args(&words).output().expect("it runs");
    assert!(output.status.success(), "{line}");
    // Where a call takes long, as on an emulated machine, not every kill is tried.
    let slow = begun.elapsed() > Duration::from_millis(150);
    let after = said(&folder);
    assert!(after != before);
    let names = folder.names();
    let kill = if traced() { killed } else { timed };
    let mut places = (1..).step_by(if slow { 5 } else { 1 });
    let ended = places.find(|&place| {
        folder.write("tunebriar.pool", &pool);
        let _ = fs::remove_file(folder.path.join(JOURNAL));
        let killed = kill(&folder, &words, place);
        let now = said(&folder);
        assert!(
            now == before || now == after,
            "{line}: kill {place}: a book in between"
        );
        folder.whole("2026-11");
        let left = folder.names().into_iter().filter(|name| name != JOURNAL);
        assert_eq!(
            left.collect::<Vec<_>>(),
            names,
            "{line}: kill {place}: a file is left"
        );
        !killed
    });
    assert!(ended.is_some_and(|place| place > 5), "{line}: {ended:?}");
    assert!(said(&folder) == after, "{line}: not killed, it is done");
    assert_eq!(folder.names(), names);
}

/// The journal is the book's own; the next call that changes the book ends it.
const JOURNAL: &str = "tunebriar.pool-journal";

#[test]
fn a_play_is_whole() {
    let tapes = |folder: &Folder| {
        folder.write("a.tape", [program(0, 1), program(0x20, 2)].concat());
        folder.write("b.tape", crate::common::record(0, 8, &[0x77]).repeat(50));
    };
    every_kill("kill-play", &tapes, "play b a.tape b.tape");
}

#[test]
fn a_transaction_is_whole() {
    every_kill("kill-transact", &|_| {}, "transact b 77");
}

#[test]
fn a_month_s_close_is_whole() {
    let boards = |folder: &Folder| {
        for board in ["c", "d"] {
            folder.served(&format!("board add {board} --department {board}"));
        }
        folder.served("transact c 77");
    };
    every_kill("kill-close", &boards, "month close 2026-11");
}

#[test]
fn a_new_board_is_whole() {
    let image = |folder: &Folder| {
        let image: Vec<u8> = (0..SIZE)
            .map(|place| if place < 20_000 { place as u8 } else { 0xFF })
            .collect();
        folder.write("image.bin", image);
    };
    every_kill(
        "kill-add",
        &image,
        "board add c --department d --image image.bin",
    );
}

#[test]
fn a_ledger_is_whole() {
    let ledger = |folder: &Folder| {
        for place in 0..6 {
            folder.served(&format!("board add n{place} --department d{place}"));
            folder.write(&format!("{place}.tape"), program(place, place));
        }
        let rows: String = (0..6)
            .map(|place| format!("d{place},n{place},{place}.tape\n"))
            .collect();
        folder.write("ledger.csv", format!("department,board,tape\n{rows}"));
    };
    every_kill("kill-ledger", &ledger, "ledger import ledger.csv");
}

/// A pool that was killed while it was made is made by the next call.
#[test]
fn a_new_pool_is_whole_or_not_there() {
    let folder = Folder::new("kill-new");
    folder.write("prices.txt", PRICES);
    let kill = if traced() { killed } else { timed };
    for place in 1.. {
        for name in ["tunebriar.pool", JOURNAL] {
            let _ = fs::remove_file(folder.path.join(name));
        }
        let ended = !kill(&folder, &["pool", "new"], place);
        if folder.run("board list").status != 0 {
            folder.served("pool new");
        }
        folder.served("month open 2026-11 --prices prices.txt");
        folder.whole("2026-11");
        if ended {
            break;
        }
    }
}

/// An output is the old file or the new one, and nothing lies beside it.
#[test]
fn an_export_is_whole() {
    let folder = Folder::with_board("kill-export");
    folder.write("t.txt", "send 06\n");
    folder.write("old", "the old one");
    let kill = if traced() { killed } else { timed };
    for place in 1.. {
        folder.write("a.tape", "the old one");
        let _ = fs::remove_file(folder.path.join("new.tape"));
        let replaced = kill(&folder, &["tape", "t.txt", "a.tape", "--force"], place);
        let bytes = folder.bytes("a.tape");
        assert!(
            bytes.len() == 264 || bytes == b"the old one",
            "kill {place}"
        );
        let appeared = kill(&folder, &["tape", "t.txt", "new.tape"], place);
        let new = fs::read(folder.path.join("new.tape"));
        assert!(
            new.as_ref().map_or(true, |bytes| bytes.len() == 264),
            "kill {place}"
        );
        if !replaced && !appeared {
            break;
        }
    }
    // A kill just before the last step leaves the new file under a hidden name
    // of its own, which no other call takes over, follows or empties.
    for (name, bytes) in folder.all() {
        let hidden = name.starts_with('.');
        assert!(!hidden || name.ends_with(".tunebriar"), "{name}");
        assert!(!hidden || bytes.len() == 264, "{name}");
    }
}
