//! Jobs: from text and back, quoted and translated.

use crate::common::Folder;

#[test]
fn a_text_becomes_a_job() {
    let folder = Folder::new("job");
    folder.write("three bytes.bin", [1, 2, 3]);
    folder.write(
        "a.txt",
        "# a job\nerase 4k 0x1000\nerase all # everything\n\nlay 0x100 hex 11 22 \\\n 3344\n\
         lay 4096 from \"three bytes.bin\"\nlay 5 from \"three bytes.bin\" at 1 for 2\n\
         guard 17\nguard bottom 64k\n",
    );
    let said = folder.served("job a.txt a.job a.payload");
    assert_eq!(said, "a.job: 7 records\na.payload: 9 bytes\n");
    let rows = [
        [1, 0, 0, 0, 0, 0, 0x10, 0, 0, 0, 0, 0, 0, 0, 0, 0],
        [1, 3, 0, 0, 0, 0, 0, 0, 0, 0, 0, 0, 0, 0, 0, 0],
        [2, 0, 0, 0, 0, 0, 1, 0, 0, 0, 0, 4, 0, 0, 0, 0],
        [2, 0, 0, 0, 0, 0, 0x10, 0, 0, 0, 0, 3, 0, 0, 0, 4],
        [2, 0, 0, 0, 0, 0, 0, 5, 0, 0, 0, 2, 0, 0, 0, 7],
        [3, 17, 0, 0, 0, 0, 0, 0, 0, 0, 0, 0, 0, 0, 0, 0],
        [3, 9, 0, 0, 0, 0, 0, 0, 0, 0, 0, 0, 0, 0, 0, 0],
    ];
    assert_eq!(folder.bytes("a.job"), rows.concat());
    let payload = [0x11, 0x22, 0x33, 0x44, 1, 2, 3, 2, 3];
    assert_eq!(folder.bytes("a.payload"), payload);
}

#[test]
fn a_long_file_is_cut_where_it_costs_nothing() {
    let folder = Folder::new("cut");
    folder.write("long.bin", [0; 10_000]);
    folder.write("a.txt", "lay 0x1fe80 from long.bin\n");
    assert!(
        folder
            .served("job a.txt a.job a.payload")
            .contains(": 4 records")
    );
    let job = folder.bytes("a.job");
    let spans: Vec<_> = job
        .chunks(16)
        .map(|row| [&row[4..8], &row[8..12]])
        .collect();
    assert_eq!(spans[0], [&[0, 1, 0xFE, 0x80][..], &[0, 0, 1, 0x80]]);
    assert_eq!(spans[1], [&[0, 2, 0, 0][..], &[0, 0, 0x10, 0]]);
    // From 1FE80 to 22590 there are 40 pages, cut or not.
    let quoted = folder.served("quote a.job a.payload");
    assert!(quoted.contains("programs         40\n"), "{quoted}");
}

#[test]
fn a_job_goes_back_to_text_and_forth() {
    let folder = Folder::new("back");
    let text = "erase 32k 0x008000\nerase all\nlay 0x000100 hex \\\n  \
                00 01 02 03 04 05 06 07 08 09 0A 0B 0C 0D 0E 0F \\\n  10 11\n\
                lay 0x000ffe hex AA BB CC\nguard 17 # top 4k\nguard 6 # all\n";
    folder.write("a.txt", text);
    folder.served("job a.txt a.job a.payload");
    assert_eq!(
        folder.served("job b.txt a.job a.payload --back"),
        "b.txt: 6 steps\n"
    );
    assert_eq!(folder.text("b.txt"), text);
}

#[test]
fn a_payload_out_of_order_comes_back_too() {
    let folder = Folder::new("spans");
    let rows = [
        [2, 0, 0, 0, 0, 0, 1, 0, 0, 0, 0, 2, 0, 0, 0, 5],
        [2, 0, 0, 0, 0, 0, 2, 0, 0, 0, 0, 4, 0, 0, 0, 4],
    ];
    folder.write("a.job", rows.concat());
    folder.write("a.payload", [9, 8, 7, 6, 5, 4, 3, 2, 1]);
    folder.served("job a.txt a.job a.payload --back");
    folder.served("job a.txt b.job b.payload");
    assert_eq!(folder.bytes("b.job"), folder.bytes("a.job"));
    assert_eq!(folder.bytes("b.payload"), folder.bytes("a.payload"));
    folder.served("job a.txt b.job b.payload --back --force");
}

#[test]
fn reading_b14_from_text_to_listing() {
    let folder = Folder::new("b14");
    folder.write("b14.txt", "lay 0xfe hex 11 22 33 44\n");
    folder.served("job b14.txt b14.job b14.payload");
    let said = folder.served("translate b14.job b14.payload b14.tape --setting 0");
    assert_eq!(said, "b14.tape: 6 records\n");
    assert_eq!(folder.bytes("b14.tape").len(), 1_584);
    assert_eq!(
        folder.served("list b14.tape"),
        "0000 T 06 001\n0001 T 02 006\n0002 F\n0003 T 06 001\n0004 T 02 006\n0005 F\n"
    );
}

#[test]
fn a_quote_is_what_a_play_counts() {
    let folder = Folder::with_month("quote");
    folder.write(
        "a.txt",
        "erase 4k 0\nlay 0xff hex 11 22\nguard top-64k\nguard 0\n",
    );
    folder.served("job a.txt a.job a.payload");
    assert_eq!(
        folder.served("quote a.job a.payload --board b --prices prices.txt"),
        "programs         2\nerases           1\nregister writes  2\ntape             3,960 bytes\n\
         amount           1.74 EUR\n"
    );
    let json = folder.json("quote a.job a.payload --prices prices.txt");
    assert_eq!(
        (&json["register_writes"], &json["amount"]),
        (&2.into(), &"1.74".into())
    );
    folder.served("translate a.job a.payload a.tape --board b");
    let said = folder.served("play b a.tape");
    assert!(said.contains("rise       programs 2, erases 1, register writes 2, ignored 0\n"));
}

/// Each start at which the chip would not do the job is told.
#[test]
fn a_start_that_is_no_start_is_told() {
    let folder = Folder::with_board("starts");
    folder.write("a.txt", "lay 0 hex 11\nguard 0\n");
    folder.served("job a.txt a.job a.payload");
    folder.write("none.txt", "");
    folder.served("job none.txt none.job none.payload");
    let cases = [
        (
            "0",
            "no",
            [0; 4],
            "not ready: 4 of the 6 records would be ignored, the first for verdict 11",
        ),
        ("0x0003", "yes", [0; 4], "not ready: "),
        ("0x0100", "yes", [0; 4], "verdict 15 the status was locked"),
        (
            "0x0001",
            "yes",
            [0; 4],
            "refused 3: the registers are not well formed",
        ),
        ("0x8000", "yes", [0; 4], "refused 3: "),
        (
            "0",
            "yes",
            [0, u32::MAX - 5, 0, 0],
            "refused 7: a count of the meter has no room",
        ),
    ];
    for (status, awake, counts, says) in cases {
        folder.state("a.state", status, awake, counts);
        let says = ["a.state: ", says];
        folder.fails("quote a.job a.payload --state a.state", 1, &says);
        folder.fails("translate a.job a.payload a.tape --state a.state", 1, &says);
    }
    folder.state("a.state", "0x0001", "yes", [0; 4]);
    folder.fails(
        "quote none.job none.payload --state a.state",
        1,
        &["refused 3: "],
    );
    // Locked only while /WP is low, which no translated tape has; WEL is set anew.
    folder.state("a.state", "0x0082", "yes", [0; 4]);
    folder.served("quote a.job a.payload --state a.state");
    folder.board_in("asleep", "0", "no", [0; 4]);
    folder.fails(
        "quote a.job a.payload --board asleep",
        1,
        &["board asleep: not ready: "],
    );
}

#[test]
fn a_part_of_a_large_file_is_all_that_is_read() {
    let folder = Folder::new("large");
    let big = std::fs::File::create(folder.path.join("big")).expect("a file");
    big.set_len(2 << 30).expect("a hole of two gigabytes");
    folder.write(
        "a.txt",
        "lay 0 from big at 0 for 10\nlay 16 from big at 2147483000 for 3\n",
    );
    let line = "ulimit -v 1500000; tunebriar job a.txt a.job a.payload";
    let ran = folder.shell(line);
    assert_eq!(
        (ran.status, ran.out.as_str()),
        (0, "a.job: 2 records\na.payload: 13 bytes\n"),
        "{ran:?}"
    );
    folder.write("b.txt", "lay 0 from big\n");
    folder.fails("job b.txt b.job b.payload", 1, &["b.txt: ", "refused 20: "]);
    folder.write("c.txt", "lay 0 from big at 2147483640 for 10\n");
    folder.fails(
        "job c.txt c.job c.payload",
        2,
        &["c.txt: line 1: big: ends before place 2147483650"],
    );
}
