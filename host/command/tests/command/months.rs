//! Months: opened, closed once, billed, audited.

use crate::common::{Folder, PRICES, program, record};

#[test]
fn a_month_closes_once_and_what_comes_later_is_the_next_s() {
    let folder = Folder::with_month("month");
    folder.write("a.tape", program(0, 0x11));
    folder.served("play b a.tape");
    assert_eq!(
        folder.served("month close 2026-11"),
        "2026-11: closed at 2026-11-16T10:00:00Z, 1 plays\n"
    );
    folder.fails(
        "month close 2026-11",
        1,
        &["2026-11 was closed at 2026-11-16T10:00:00Z"],
    );
    folder.fails(
        "month open 2026-11 --prices prices.txt",
        1,
        &["2026-11 is closed already"],
    );
    folder.fails(
        "month open 2026-10 --prices prices.txt",
        1,
        &["2026-10 is not later"],
    );
    folder.served("play b a.tape a.tape");
    folder.served("month open 2026-12 --prices prices.txt");
    folder.fails(
        "month open 2027-01 --prices prices.txt",
        1,
        &["2026-12 is open"],
    );
    folder.served("play b a.tape");
    let programs = |month: &str| {
        let bill = folder.json(&format!("month bill {month} --detail"));
        bill["total"]["programs"].clone()
    };
    assert_eq!(
        (programs("2026-11"), programs("2026-12")),
        (1.into(), 3.into())
    );
    assert_eq!(
        folder.served("month list"),
        "2026-11  opened 2026-11-16T10:00:00Z, closed 2026-11-16T10:00:00Z, 1 plays\n\
         2026-12  opened 2026-11-16T10:00:00Z, still open, 3 plays\n"
    );
    folder.whole("2026-11");
    folder.whole("2026-12");
}

#[test]
fn an_open_month_gets_new_prices_only_if_asked() {
    let folder = Folder::with_month("prices");
    folder.write("a.tape", program(0, 0x11));
    folder.served("play b a.tape");
    folder.write("new.txt", PRICES.replace("0.02", "0.04"));
    folder.fails(
        "month open 2026-11 --prices new.txt",
        1,
        &["2026-11 is open already; --force"],
    );
    folder.served("month open 2026-11 --prices new.txt --force");
    assert!(folder.served("month bill 2026-11").contains("0.04"));
}

/// The chip ignores what it may not do, and no program of it is billed.
#[test]
fn what_was_ignored_is_not_billed() {
    let folder = Folder::with_month("not-billed");
    let tape = [
        program(0, 0x11),
        record(0, 8, &[2, 0, 1, 0, 0x22]).repeat(9),
    ];
    folder.write("a.tape", tape.concat());
    folder.served("play b a.tape");
    let bill = folder.json("month bill 2026-11");
    let lab = &bill["departments"][0];
    assert_eq!(
        (&lab["programs"], &lab["name"]),
        (&1.into(), &"lab".into()),
        "{bill:#}"
    );
    let said = folder.served("month bill 2026-11 --csv bill.csv --svg bill.svg --html bill.html");
    assert!(said.contains("0.02"), "{said}");
    assert!(
        said.ends_with("written: bill.csv, bill.svg, bill.html\n"),
        "{said}"
    );
    let page = folder.text("bill.html");
    assert!(
        page.contains("<svg") && !page.contains("<script"),
        "the chart is inside"
    );
    folder.fails(
        "month bill 2026-11 --csv bill.csv",
        2,
        &["bill.csv: is there already"],
    );
    folder.served("month bill 2026-11 --csv bill.csv --force");
    let detail = folder.run("month bill 2026-11 --detail --csv -").out;
    assert!(detail.contains("a.tape"), "{detail}");
}

/// Every way in which a book can lie is found.
#[test]
fn an_audit_finds_what_was_changed_by_hand() {
    let lies = [
        (
            "UPDATE play SET programs = programs - 1 WHERE id = 1",
            "what it raised",
        ),
        ("DELETE FROM ignored WHERE record = 3", "what was ignored"),
        ("UPDATE ignored SET verdict = 16", "what was ignored"),
        (
            "UPDATE play SET refusal = NULL, refused_record = NULL WHERE id = 2",
            "whether it was refused",
        ),
        (
            "UPDATE board SET programs = 0",
            "its last registers or meter",
        ),
        ("UPDATE sector SET bytes = x'12'", "its last array"),
        (
            "UPDATE tape SET bytes = zeroblob(0)",
            "its tape is not the one that was played",
        ),
        (
            "UPDATE opening SET programs = 7",
            "its last registers or meter",
        ),
        ("UPDATE opening_sector SET bytes = x'00'", "its last array"),
    ];
    for (place, (lie, says)) in lies.into_iter().enumerate() {
        let folder = Folder::with_month(&format!("lie-{place}"));
        folder.write(
            "a.tape",
            [program(0, 0x11), record(0, 8, &[2, 0, 1, 0, 0x22])].concat(),
        );
        folder.write("torn.tape", [0]);
        assert_eq!(folder.run("play b a.tape torn.tape").status, 1);
        folder.whole("2026-11");
        let book = folder.book();
        book.execute_batch("PRAGMA ignore_check_constraints = ON")
            .expect("set");
        assert!(book.execute(lie, []).expect(lie) > 0, "{lie}");
        drop(book);
        let ran = folder.run("audit 2026-11");
        assert_eq!(ran.status, 1, "{lie}: {ran:?}");
        assert!(ran.out.contains(says), "{lie}: {ran:?}");
    }
}

/// A month is audited from its own beginning, however much came after it.
#[test]
fn a_closed_month_is_audited_later() {
    let folder = Folder::with_month("later");
    let erase = [
        record(0, 8, &[6]),
        record(0, 8, &[0x20, 0, 0, 0]),
        record(1, 0, &[]),
    ];
    folder.write("erase.tape", erase.concat());
    let months = ["2026-11", "2026-12", "2027-01", "2027-02"];
    for (place, month) in months.into_iter().enumerate() {
        if place > 0 {
            folder.served(&format!("month open {month} --prices prices.txt"));
        }
        let name = format!("c{place}");
        folder.served(&format!("board add {name} --department d{place}"));
        for board in ["b", "c0", &name] {
            let tape = [
                erase.concat(),
                program(place as u8, place as u8),
                program(0x20, !(place as u8)),
            ];
            folder.write("m.tape", tape.concat());
            folder.served(&format!("play {board} m.tape"));
        }
        if place < 3 {
            folder.served(&format!("month close {month}"));
        }
    }
    for month in months {
        folder.whole(month);
    }
    assert_eq!(folder.json("audit 2026-12")["boards"], 3);
}

/// A department whose board can play nothing is not billed 0 in silence.
#[test]
fn a_broken_board_and_a_full_meter_are_noted_on_the_bill() {
    let folder = Folder::with_month("noted");
    folder.board_in("full", "0", "yes", [u32::MAX, 0, 0, 0]);
    let note = "note: board full: a count of its meter is full";
    assert!(folder.served("month bill 2026-11").contains(note));
    let book = folder.book();
    book.execute("UPDATE board SET status = 65535 WHERE name = 'b'", [])
        .expect("changed");
    drop(book);
    let note = "note: board b: refused 3: the registers are not well formed";
    assert!(folder.served("month bill 2026-11").contains(note));
    folder.fails(
        "month close 2026-11",
        1,
        &["2026-11 is not closed: board b: refused 3: "],
    );
    assert!(folder.served("month close 2026-11 --force").contains(note));
    assert_eq!(
        folder.json("month bill 2026-11")["notes"]
            .as_array()
            .map(Vec::len),
        Some(2)
    );
}

#[test]
fn an_open_month_gets_another_name_only_if_asked() {
    let folder = Folder::with_month("renamed");
    folder.served("month close 2026-11");
    folder.served("month open 9999-12 --prices prices.txt");
    folder.fails(
        "month open 2026-12 --prices prices.txt",
        1,
        &["9999-12 is open", "--force renames it"],
    );
    folder.fails(
        "month open 2026-11 --prices prices.txt --force",
        1,
        &["2026-11 is not later"],
    );
    assert_eq!(
        folder.served("month open 2026-12 --prices prices.txt --force"),
        "2026-12: open, called 9999-12 before, 0 plays so far\n"
    );
    folder.fails("month bill 9999-12", 2, &["9999-12 was never opened"]);
}

/// Times in the book have the order of the book.
#[test]
fn a_time_before_the_book_s_last_is_refused() {
    let folder = Folder::with_month("times");
    let at = |time: &str, call: &str| {
        let mut command = folder.command();
        command.args(["--now", time]).args(call.split(' '));
        let ran: crate::common::Ran = command.output().expect("it runs").into();
        ran
    };
    let early = "2026-11-16T09:59:59Z";
    let says = "the time 2026-11-16T09:59:59Z is before the book's last, 2026-11-16T10:00:00Z";
    for call in [
        "transact b 06",
        "month close 2026-11",
        "board add c --department d",
    ] {
        folder.failed(call, &at(early, call), 1, &[says]);
    }
    assert_eq!(at(early, "board list").status, 0);
    assert_eq!(at("2026-12-05T00:00:00Z", "transact b 06").status, 0);
    let says = ["before the book's last, 2026-12-05T00:00:00Z"];
    folder.fails("transact b 04", 1, &says);
}
