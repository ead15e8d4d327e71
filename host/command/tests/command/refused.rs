//! Refusals: exit status 1, what each is about, the record, the number and the
//! words, and no file changed.

use crate::common::{Folder, program, record};

/// A board and a good job.
fn folder(name: &str) -> Folder {
    let folder = Folder::with_month(name);
    folder.write("a.txt", "lay 0 hex 11\n");
    folder.served("job a.txt a.job a.payload");
    folder
}

/// A board whose meter has no room is told as that, not as its tape's fault,
/// and nothing of the call is kept.
#[test]
fn refusal_7_is_the_board_s() {
    let folder = folder("refusal-7");
    folder.write("a.tape", record(1, 0, &[]).repeat(3));
    folder.write(
        "b.csv",
        "department,board,tape\nlab,b,a.tape\nlab,full,a.tape\n",
    );
    folder.board_in("full", "0", "yes", [0, u32::MAX - 2, 0, 0]);
    let says = ["board full: a.tape was not played: refused 7: a count of the meter has no room"];
    folder.fails("play full a.tape", 1, &says);
    folder.fails(
        "ledger import b.csv",
        1,
        &["b.csv: line 3: board full: a.tape was not played"],
    );
    folder.board_in("fuller", "0", "yes", [u32::MAX; 4]);
    folder.fails("transact fuller 05", 1, &["board fuller: refused 7: "]);
    // The room is that of the whole tape, and of one record there is enough.
    folder.served("transact full 05");
    folder.whole("2026-11");
}

/// What someone has done to the book by hand is told as the board's, too.
#[test]
fn refusal_3_is_the_board_s() {
    let folder = folder("refusal-3");
    folder.write("a.tape", program(0, 1));
    folder
        .book()
        .execute("UPDATE board SET status = 1", [])
        .expect("changed");
    let says = ["board b: refused 3: the registers are not well formed"];
    for call in [
        "play b a.tape",
        "flash b a.tape",
        "board show b",
        "board export b b.array b.state",
        "transact b finish",
    ] {
        folder.fails(call, 1, &says);
    }
    let listed = folder.run("board list");
    folder.failed("board list", &listed, 1, &says);
    assert!(listed.out.contains("lab  b"), "{listed:?}");
    folder.fails(
        "quote a.job a.payload --board b",
        1,
        &["board b: refused 3: "],
    );
}

#[test]
fn refusal_20_a_job_too_long() {
    let folder = folder("refusal-20");
    folder.write("bad.txt", "guard 0\n".repeat(65));
    folder.fails("job bad.txt b.job b.payload", 1, &["bad.txt: refused 20: "]);
    folder.write(
        "bad.job",
        [3, 0, 0, 0, 0, 0, 0, 0, 0, 0, 0, 0, 0, 0, 0, 0].repeat(65),
    );
    folder.write("torn.job", [3; 17]);
    for job in ["bad.job", "torn.job"] {
        let says = [&format!("{job}: refused 20: ")[..]];
        folder.fails(&format!("translate {job} a.payload b.tape"), 1, &says);
        folder.fails(&format!("quote {job} a.payload"), 1, &says);
        folder.fails(&format!("job b.txt {job} a.payload --back"), 1, &says);
    }
    folder.write("big.payload", vec![0; 65_537]);
    folder.fails("quote a.job big.payload", 1, &["a.job: refused 20: "]);
    folder.write("big.txt", "lay 0 from big.payload\n");
    folder.fails("job big.txt b.job b.payload", 1, &["big.txt: refused 20: "]);
}

#[test]
fn refusal_21_a_setting_over_31() {
    let folder = folder("refusal-21");
    folder.fails(
        "translate a.job a.payload b.tape --setting 32",
        1,
        &["refused 21: "],
    );
    folder.fails("quote a.job a.payload --setting 255", 1, &["refused 21: "]);
}

#[test]
fn refusals_22_to_25_name_the_record() {
    let folder = folder("refusal-22");
    let good = [1, 0, 0, 0, 0, 0, 0, 0, 0, 0, 0, 0, 0, 0, 0, 0];
    let bad: [(u32, [u8; 16]); 4] = [
        (22, [4, 0, 0, 0, 0, 0, 0, 0, 0, 0, 0, 0, 0, 0, 0, 0]),
        (23, [1, 0, 0, 0, 0, 0x20, 0, 0, 0, 0, 0, 0, 0, 0, 0, 0]),
        (24, [2, 0, 0, 0, 0, 0, 0, 0, 0, 0, 0, 2, 0, 0, 0, 0]),
        (
            25,
            [1, 0, 0, 0, 0, 0x1F, 0xFF, 0xFF, 0, 0, 0, 0, 0, 0, 0, 0],
        ),
    ];
    for (number, row) in bad {
        folder.write("bad.job", [good, good, row].concat());
        let says = [&format!("bad.job: record 2: refused {number}: ")[..]];
        folder.fails(
            "translate bad.job a.payload b.tape --setting top-4k",
            1,
            &says,
        );
        folder.fails("quote bad.job a.payload --setting 17", 1, &says);
        if number != 25 {
            folder.fails("job b.txt bad.job a.payload --back", 1, &says);
        }
    }
}

#[test]
fn a_text_is_refused_with_its_line() {
    let folder = folder("refused-line");
    for (line, number) in [
        ("erase 4k 0x200000", 23),
        ("lay 0x1fffff hex 11 22", 23),
        ("lay 0 hex", 23),
        ("lay 0 span 0 4097", 23),
        ("lay 0 span 1 1", 24),
        ("guard 32", 22),
    ] {
        folder.write("bad.txt", format!("# a job\nerase all\n\n{line}\n"));
        let says = [&format!("bad.txt: line 4, record 1: refused {number}: ")[..]];
        folder.fails("job bad.txt b.job b.payload", 1, &says);
    }
}

#[test]
fn refusals_30_and_31_of_a_tape() {
    let folder = folder("refusal-31");
    let good = record(1, 0, &[]).repeat(3);
    let long = [vec![1, 5], vec![0; 262]].concat();
    let torn = ("refused 30: the tape is not whole records", vec![0; 263]);
    let bad = [
        record(3, 0, &[]),
        record(0, 16, &[]),
        record(1, 8, &[]),
        record(2, 0, &[1]),
        long,
    ];
    let bad = bad.map(|row| {
        let says = "record 3: refused 31: a tape record outside the rules";
        (says, [good.clone(), row].concat())
    });
    for (says, tape) in bad.into_iter().chain([torn]) {
        folder.write("bad.tape", tape);
        let says = [&format!("bad.tape: {says}")[..]];
        folder.fails("play b bad.tape --strict", 1, &says);
        folder.fails("play b bad.tape --dry-run --first 1", 1, &says);
        folder.fails("tape b.txt bad.tape --back", 1, &says);
        folder.fails("list bad.tape", 1, &says);
        folder.fails("list bad.tape --long --board b", 1, &says);
    }
    assert_eq!(folder.run("list bad.tape").out, "refused 30 0000\n");
}
