//! Tapes: from text and back, and listed.

use crate::common::{Folder, program, record};

#[test]
fn a_tape_goes_to_text_and_back() {
    let folder = Folder::new("tape");
    let tape = [
        record(0, 8, &[0x06]),
        record(0, 3, &[0x05, 0x00]),
        record(0, 0, &[]),
        record(0, 15, &[0xAB]),
        record(1, 0, &[]),
        record(2, 0, &[]),
    ];
    folder.write("a.tape", tape.concat());
    assert_eq!(
        folder.served("tape a.txt a.tape --back"),
        "a.txt: 6 records\n"
    );
    assert_eq!(
        folder.text("a.txt"),
        "send 06\nsend wp-low bits 3 05 00\nsend wp-low\nsend bits 7 AB\nfinish\npower-cycle\n"
    );
    folder.served("tape a.txt b.tape");
    assert_eq!(folder.bytes("b.tape"), tape.concat());
    assert_eq!(
        folder.served("list b.tape"),
        "0000 T 06 001\n0001 T 05 002\n0002 T -- 000\n0003 T AB 001\n0004 F\n0005 P\n"
    );
}

#[test]
fn the_longest_listing_is_248_records() {
    let folder = Folder::new("longest");
    folder.write("a.tape", record(1, 0, &[]).repeat(248));
    let said = folder.served("list a.tape");
    assert_eq!(said.lines().last(), Some("0247 F"));
}

#[test]
fn an_empty_tape_prints_nothing() {
    let folder = Folder::with_board("empty");
    folder.write("a.tape", []);
    assert_eq!(folder.served("list a.tape"), "");
    let said = folder.served("play b a.tape");
    assert!(said.starts_with("a.tape: 0 of 0 records played, play 1\n"));
}

#[test]
fn a_tape_of_any_size_is_listed_in_full() {
    let folder = Folder::with_board("long");
    folder.write("long.tape", record(1, 0, &[]).repeat(249));
    let line = "list long.tape";
    let ran = folder.run(line);
    let says = [
        "long.tape: refused 30: over 65,472 bytes",
        "--long takes any size",
    ];
    folder.failed(line, &ran, 1, &says);
    assert!(!ran.err.contains("not whole records"), "{ran:?}");
    assert_eq!(ran.out, "refused 30 0000\n");
    let said = folder.served("list long.tape --long");
    assert_eq!(said.lines().last(), Some("0248  finish"));
    let tape = [
        program(0x20, 1),
        record(0, 3, &[0x20, 0xE0, 0x30, 0]),
        record(2, 0, &[]),
    ];
    folder.write("a.tape", tape.concat());
    let line = |verdicts: [&str; 3]| {
        format!(
            "0000  06 write enable, 1 bytes{}\n0001  02 page program at 0x002000, 5 bytes{}\n\
             0002  finish\n0003  20 erase of 4 KB at 0x003000, 4 bytes, /WP low, 3 leftover bits{}\n\
             0004  power cycle\n",
            verdicts[0], verdicts[1], verdicts[2]
        )
    };
    assert_eq!(folder.served("list a.tape --long"), line(["", "", ""]));
    assert_eq!(
        folder.served("list a.tape --long --board b"),
        line([
            ": 0, carried out: write enable",
            ": 0, carried out: page program",
            ": 13, ignored: wrong byte count, or leftover bits",
        ])
    );
    assert_eq!(
        folder.json("list a.tape --long --board b")[3]["verdict"],
        13
    );
    assert_eq!(folder.json("board show b")["state"]["meter"]["ignored"], 0);
}
