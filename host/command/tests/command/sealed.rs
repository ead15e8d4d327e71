//! A book that was changed by hand: the bill and the audit say so.

use crate::common::{Folder, program};

/// Two departments with a play each, a refused tape, and the month closed.
fn closed(name: &str) -> Folder {
    let folder = Folder::with_month(name);
    folder.served("board add c --department drivers");
    folder.write("a.tape", program(0, 0x11));
    folder.write("torn.tape", [0]);
    folder.served("play b a.tape");
    assert_eq!(folder.run("play c a.tape torn.tape").status, 1);
    folder.served("month close 2026-11");
    folder.whole("2026-11");
    folder
}

/// Changes the book behind the command's back.
fn change(folder: &Folder, sql: &str) {
    let book = folder.book();
    let free = "PRAGMA ignore_check_constraints = ON; PRAGMA foreign_keys = OFF";
    book.execute_batch(free).expect("set");
    assert!(book.execute(sql, []).expect(sql) > 0, "{sql}");
}

fn audit_says(folder: &Folder, sql: &str, says: &str) {
    let ran = folder.run("audit 2026-11");
    assert_eq!(ran.status, 1, "{sql}: {ran:?}");
    assert!(ran.out.contains(says), "{sql}: {ran:?}");
}

#[test]
fn a_closed_month_is_sealed() {
    let changes = [
        "UPDATE month SET prices = replace(prices, '0.02', '0.01') WHERE id = 1",
        "UPDATE opening SET department = 1 WHERE board = 2 AND month = 1",
        "UPDATE department SET name = 'other' WHERE name = 'lab'",
        "DELETE FROM play WHERE id = 3",
        "UPDATE play SET month = 2 WHERE id = 3",
        "UPDATE play SET name = 'x' WHERE id = 1",
        "UPDATE play SET played = '1999-01-01T00:00:00Z' WHERE id = 1",
        "UPDATE month SET closed = '2026-11-16T11:00:00Z' WHERE id = 1",
        "UPDATE opening SET programs = programs + 5 WHERE board = 2",
        "UPDATE month SET seal = zeroblob(32) WHERE id = 1",
    ];
    let folder = closed("sealed");
    let good = folder.bytes("tunebriar.pool");
    for sql in changes {
        folder.write("tunebriar.pool", &good);
        change(&folder, sql);
        let says = "2026-11 was changed after it was closed";
        folder.fails("month bill 2026-11", 2, &[says]);
        audit_says(&folder, sql, says);
    }
    folder.write("tunebriar.pool", &good);
    let sql = "UPDATE month SET closed = NULL, seal = NULL WHERE id = 1";
    change(&folder, sql);
    folder.fails("month bill 2026-11", 2, &["2026-11 has no seal"]);
    audit_says(&folder, sql, "2026-11 has no seal");
}

/// A seal holds the one before, and a board may find another payer later.
#[test]
fn seals_hang_together_and_old_bills_stay() {
    let folder = closed("seals");
    let bill = folder.served("month bill 2026-11 --detail");
    change(&folder, "UPDATE board SET department = 1 WHERE id = 2");
    assert_eq!(folder.served("month bill 2026-11 --detail"), bill);
    folder.whole("2026-11");
    folder.served("month open 2026-12 --prices prices.txt");
    let seal = folder.json("month close 2026-12")["seal"].clone();
    assert_eq!(folder.json("month list")[1]["seal"], seal);
    folder.served("month bill 2026-12");
    change(&folder, "UPDATE month SET seal = zeroblob(32) WHERE id = 1");
    folder.fails("month bill 2026-12", 2, &["2026-12 was changed"]);
}

#[test]
fn a_play_that_nobody_pays_for_is_told() {
    let folder = closed("nobody");
    let sql = "DELETE FROM opening WHERE board = 2 AND month = 1";
    change(&folder, sql);
    folder.fails(
        "month bill 2026-11",
        2,
        &["play 2: its board is not one of"],
    );
    audit_says(&folder, sql, "play 2: its board is not one of");
    audit_says(
        &folder,
        sql,
        "1 plays could be replayed, and the month has 3",
    );
}

#[test]
fn an_audit_looks_at_the_whole_book() {
    let changes = [
        (
            "DELETE FROM play WHERE id = 2",
            "1 of the plays 1 to 3 are not there",
        ),
        (
            "UPDATE play SET month = 2 WHERE id = 1",
            "play 2: its month or time is before",
        ),
        (
            "DELETE FROM department WHERE id = 2",
            "its department is not there",
        ),
        (
            "UPDATE play SET tape = 99 WHERE id = 3",
            "its tape is not there",
        ),
        (
            "INSERT INTO sector VALUES (1, 9999, x'00')",
            "b: the pool: a sector that no chip has",
        ),
        (
            "UPDATE opening SET status = 70000 WHERE board = 2",
            "c: the pool: Integer 70000",
        ),
        (
            "UPDATE board SET chip = 'X1' WHERE id = 1",
            "b: its chip 'X1' is none",
        ),
    ];
    let folder = closed("whole");
    let good = folder.bytes("tunebriar.pool");
    for (sql, says) in changes {
        folder.write("tunebriar.pool", &good);
        change(&folder, sql);
        audit_says(&folder, sql, says);
    }
}
