//! Ledgers: imported on a fresh pool or on boards, exported, and looked at
//! before anything is played.

use crate::common::{Folder, PRICES, SIZE, program, record};

/// Two loose chips, a good tape and a torn one.
fn loose(name: &str) -> Folder {
    let folder = Folder::new(name);
    folder.write("prices.txt", PRICES);
    for chip in ["a", "b"] {
        folder.write(&format!("{chip}.array"), vec![0xFF; SIZE]);
        folder.state(&format!("{chip}.state"), "0", "yes", [0; 4]);
    }
    folder.write("p.tape", program(0, 0x11));
    folder.write("q.tape", program(1, 0x11));
    folder.write("torn.tape", [0; 100]);
    folder
}

const HEAD: &str = "department,array,state,tape\n";
const IMPORT: &str = "ledger import ledger.csv --month 2026-11 --prices prices.txt";

#[test]
fn a_ledger_is_one_command_over_a_fresh_pool() {
    let folder = loose("ledger");
    folder.write(
        "ledger.csv",
        format!(
            "# who played what\n{HEAD}x,a.array,a.state,p.tape\n#1 lab,b.array,b.state,p.tape\n\
                 x,a.array,a.state,torn.tape\nx,a.array,a.state,q.tape\n"
        ),
    );
    let arrays = folder.bytes("a.array");
    let ran = folder.run(IMPORT);
    folder.failed(
        IMPORT,
        &ran,
        1,
        &["ledger.csv: line 5: torn.tape: refused 30: "],
    );
    assert!(
        ran.out
            .starts_with("ledger.csv: 3 tapes played, 1 refused, on 2 boards, 2 of them new\n")
    );
    let bill = folder.json("month bill 2026-11 --detail");
    let names: Vec<_> = bill["departments"]
        .as_array()
        .expect("lines")
        .iter()
        .map(|one| {
            (
                one["name"].as_str().expect("a name"),
                one["programs"].as_u64(),
            )
        })
        .collect();
    assert_eq!(names, [("#1 lab", Some(1)), ("x", Some(2))]);
    assert!(
        folder.bytes("a.array") == arrays,
        "the files stay as they are"
    );
    folder.whole("2026-11");
}

#[test]
fn an_exported_ledger_gives_the_same_bill() {
    let folder = loose("again");
    folder.write(
        "ledger.csv",
        format!("{HEAD}x,a.array,a.state,p.tape\ny,b.array,b.state,q.tape\n"),
    );
    folder.served(IMPORT);
    folder.served("transact a 05 00");
    folder.served("ledger export 2026-11 out.csv --tapes tapes");
    let text = folder.text("out.csv");
    assert!(
        text.starts_with("department,board,tape,sha256,number,played\nx,a,tapes/"),
        "{text}"
    );
    folder.served("pool new --pool other");
    folder.served("board add a --department x --pool other");
    folder.served("board add b --department y --pool other");
    folder.served("month open 2026-11 --prices prices.txt --pool other");
    folder.served("ledger import out.csv --pool other");
    let bill = |pool: &str| {
        let mut bill = folder.json(&format!("month bill 2026-11 --pool {pool}"));
        bill["pool"] = serde_json::Value::Null;
        bill
    };
    assert_eq!(bill("tunebriar.pool"), bill("other"));
    folder.write(
        "out.csv",
        text.replace("out.csv", "")
            .replacen("tapes/", "tapes/../", 1),
    );
    folder.write("forged.tape", program(9, 9));
    let line = text.lines().nth(1).expect("a row");
    let tape = line.split(',').nth(2).expect("a tape");
    folder.write("out.csv", text.replacen(tape, "forged.tape", 1));
    folder.fails(
        "ledger import out.csv --pool other",
        2,
        &["out.csv: line 2: ", "sha256"],
    );
}

/// One chip is one board, however its files are called.
#[test]
fn a_chip_named_two_ways_is_one_board() {
    let folder = loose("two-ways");
    std::os::unix::fs::symlink("a.array", folder.path.join("link.array")).expect("a link");
    // On one chip the second program of a page run clears nothing anew; on two
    // copies both start erased. The third sleeps, and the last is ignored.
    folder.write("sleep.tape", record(0, 8, &[0xB9]));
    folder.write(
        "ledger.csv",
        format!("{HEAD}x,a.array,a.state,sleep.tape\nx,./a.array,a.state,p.tape\nx,link.array,./a.state,q.tape\n"),
    );
    let said = folder.served(IMPORT);
    assert!(
        said.starts_with("ledger.csv: 3 tapes played, 0 refused, on 1 boards, 1 of them new\n"),
        "{said}"
    );
    let bill = folder.json("month bill 2026-11");
    assert_eq!(
        bill["total"]["programs"], 0,
        "all of it was sent to a sleeping chip"
    );
    folder.whole("2026-11");
}

/// Every line is looked at before anything is played, and named.
#[test]
fn ledgers_that_cannot_be_understood() {
    let folder = loose("bad-ledgers");
    let line = "a,a.array,a.state,p.tape\n";
    let cases = [
        (String::new(), "there is no line in it"),
        (HEAD.to_string(), "there is no tape in it"),
        (line.to_string(), "line 1: the header has 'a'"),
        (
            "department,board,array,state,tape\n".to_string(),
            "line 1: the header is ",
        ),
        (
            "department,tape,tape,board\n".to_string(),
            "line 1: the header has 'tape' twice",
        ),
        (
            format!("{HEAD}a,a.array,a.state\n"),
            "line 2: 3 fields; the header has 4",
        ),
        (
            format!("{HEAD}a,,a.state,p.tape\n"),
            "line 2: the array is empty",
        ),
        (
            format!("{HEAD}{line}b,./a.array,a.state,p.tape\n"),
            "line 3: in line 2 the board is one of a",
        ),
        (
            format!("{HEAD}{line}a,a.array,b.state,p.tape\n"),
            "line 3: its array or state is that of another chip, in line 2",
        ),
        (
            format!("{HEAD}{line}a,b.array,a.state,p.tape\n"),
            "line 3: its array or state",
        ),
        (
            format!("{HEAD}{line}{line}"),
            "line 3: the same as line 2; --repeats plays it again",
        ),
        (
            format!("{HEAD}{line}b,b.array,b.state,no.tape\n"),
            "line 3: no.tape: cannot be read",
        ),
        (
            format!("{HEAD}{line}b,no.array,b.state,p.tape\n"),
            "line 3: no.array: cannot be read",
        ),
        (
            format!("{HEAD}total,a.array,a.state,p.tape\n"),
            "line 2: 'total' is the name",
        ),
        (
            format!("{HEAD}\"=1+1\",a.array,a.state,p.tape\n"),
            "line 2: '=1+1': ",
        ),
        (
            format!("{HEAD}\"a\u{7}b\",a.array,a.state,p.tape\n"),
            "line 2: 'a\\u{7}b': a control",
        ),
        (
            format!("{HEAD}\"a\nb\",a.array,a.state,p.tape\n"),
            "line 2: 'a\\nb': a control",
        ),
        (
            "department,board,tape\na,a,p.tape\n".to_string(),
            "line 2: there is no board 'a'",
        ),
    ];
    for (ledger, says) in cases {
        folder.write("ledger.csv", ledger);
        let before = folder.all();
        let ran = folder.run(IMPORT);
        folder.failed(IMPORT, &ran, 2, &[&format!("ledger.csv: {says}")]);
        let left: Vec<_> = folder
            .all()
            .into_iter()
            .filter(|(name, _)| name != "tunebriar.pool")
            .collect();
        assert!(left == before, "{says}");
        let _ = std::fs::remove_file(folder.path.join("tunebriar.pool"));
    }
    folder.write("ledger.csv", format!("{HEAD}{line}{line}"));
    let said = folder.served(&format!("{IMPORT} --repeats"));
    assert!(said.starts_with("ledger.csv: 2 tapes played"), "{said}");
}

/// A broken chip is told as that, with its line, and nothing is billed.
#[test]
fn a_broken_chip_is_told_and_nothing_is_kept() {
    let folder = loose("broken-chips");
    folder.write(
        "ledger.csv",
        format!("{HEAD}a,a.array,a.state,p.tape\nb,b.array,b.state,p.tape\n"),
    );
    let cases: [(&str, &dyn Fn(), &str); 3] = [
        (
            "2",
            &|| folder.write("b.array", [0xFF; 100]),
            "b.array: refused 2: ",
        ),
        (
            "3",
            &|| folder.state("b.state", "1", "yes", [0; 4]),
            "b.state: refused 3: ",
        ),
        (
            "7",
            &|| folder.state("b.state", "0", "yes", [u32::MAX; 4]),
            "board b: p.tape was not played: refused 7: ",
        ),
    ];
    for (number, breaks, says) in cases {
        folder.write("b.array", vec![0xFF; SIZE]);
        folder.state("b.state", "0", "yes", [0; 4]);
        breaks();
        let ran = folder.run(IMPORT);
        folder.failed(number, &ran, 1, &[&format!("ledger.csv: line 3: {says}")]);
        assert_eq!(ran.out, "");
        let plays: i64 = folder
            .book()
            .query_row("SELECT count(*) FROM play", [], |row| row.get(0))
            .expect("a count");
        assert_eq!(plays, 0);
        std::fs::remove_file(folder.path.join("tunebriar.pool")).expect("removed");
    }
}

/// A tape is known by its bytes, however it is called and whenever it came.
#[test]
fn a_tape_is_not_played_twice_unasked() {
    let folder = Folder::with_month("twice");
    folder.write("p.tape", program(0, 0x11));
    folder.write("copy.tape", program(0, 0x11));
    std::os::unix::fs::symlink("p.tape", folder.path.join("link.tape")).expect("a link");
    let head = "department,board,tape\nlab,b,p.tape\n";
    for (tape, says) in [
        ("./p.tape", "l.csv: line 3: the same as line 2; --repeats"),
        ("link.tape", "l.csv: line 3: the same as line 2; --repeats"),
        (
            "copy.tape",
            "l.csv: line 3: the same bytes as line 2; --repeats",
        ),
    ] {
        folder.write("l.csv", format!("{head}lab,b,{tape}\n"));
        folder.fails("ledger import l.csv", 2, &[says]);
    }
    folder.write("l.csv", head);
    folder.served("ledger import l.csv");
    let says = ["l.csv: line 2: this is play 1 of the pool; --repeats"];
    folder.fails("ledger import l.csv", 2, &says);
    folder.served("ledger export 2026-11 e.csv --tapes tapes");
    folder.served("month close 2026-11");
    folder.served("month open 2026-12 --prices prices.txt");
    let says = ["e.csv: line 2: this is play 1 of the pool; --repeats"];
    folder.fails("ledger import e.csv", 2, &says);
    folder.served("ledger import l.csv");
    folder.served("ledger import e.csv --repeats");
    folder.whole("2026-12");
}

/// Blank lines are lines, and so is one that is no text.
#[test]
fn lines_are_counted_as_people_count_them() {
    let folder = Folder::with_board("counted");
    folder.write("l.csv", "department,board,tape\n\r\n\nlab,b,no.tape\n");
    folder.fails("ledger import l.csv", 2, &["l.csv: line 4: no.tape: "]);
    folder.write("l.csv", b"department,board,tape\n\nlab,b,\xFF.tape\n");
    folder.fails("ledger import l.csv", 2, &["l.csv: line 3: this is not"]);
}

/// A name that would be a formula is none in an exported ledger, and is itself
/// again when it is imported.
#[test]
fn names_in_an_exported_ledger_are_tame() {
    let folder = Folder::with_month("tame");
    for (place, name) in (0..).zip(["=cmd.tape", "'=b.tape", "'c.tape"]) {
        folder.write(name, program(place, 0x11));
        folder.served(&format!("play b {name}"));
    }
    folder.served("ledger export 2026-11 e.csv");
    let text = folder.text("e.csv");
    for name in ["'=cmd.tape", "''=b.tape", "''c.tape"] {
        assert!(text.contains(&format!("\nlab,b,{name},")), "{text}");
    }
    folder.served("pool new --pool other");
    folder.served("board add b --department lab --pool other");
    folder.served("ledger import e.csv --pool other");
    assert_eq!(
        folder.json("explain --board b --pool other"),
        folder.json("explain --board b")
    );
}

/// The bill that the text ends with is in the JSON as well.
#[test]
fn an_import_tells_its_bill_to_programs() {
    let folder = loose("import-json");
    folder.write("ledger.csv", format!("{HEAD}x,a.array,a.state,p.tape\n"));
    let told = folder.json(IMPORT);
    assert_eq!(told["bill"], folder.json("month bill 2026-11"));
}
