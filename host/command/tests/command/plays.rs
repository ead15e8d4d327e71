//! Plays: tapes, transactions and images on a board.

use crate::common::{Folder, SIZE, program, record};

#[test]
fn a_tape_is_played_and_kept() {
    let folder = Folder::with_month("play");
    folder.write("a.tape", program(0x20, 0x5A));
    assert_eq!(
        folder.served("play b a.tape"),
        "a.tape: 3 of 3 records played, play 1\ncarried out 2\n        1  02 page program\n        1  06 write enable\n\
         ignored 0\nfinishes 1, power cycles 0\n\
         rise       programs 1, erases 0, register writes 0, ignored 0\n\
         registers  0x0000 awake, BUSY 0 WEL 0 BP 0 TB 0 SEC 0 SRP0 0 SRP1 0 QE 0, setting 0 (none)\n\
         meter      programs 1, erases 0, register writes 0, ignored 0\n"
    );
    assert_eq!(folder.array("b")[0x2000], 0x5A);
    let json = folder.json("play b a.tape a.tape --dry-run");
    assert_eq!(json["plays"][1]["rise"]["programs"], 1);
    assert_eq!(json["after"]["meter"]["programs"], 3);
    assert_eq!(folder.json("board show b")["state"]["meter"]["programs"], 1);
    folder.whole("2026-11");
}

#[test]
fn every_ignored_record_is_told() {
    let folder = Folder::with_month("ignored");
    let tape = [
        record(0, 8, &[2, 0, 0x21, 0, 3]),
        record(0, 8, &[0x20, 0, 0x30, 0]),
        record(0, 8, &[]),
        record(0, 8, &[0x77]),
        record(0, 8, &[0x06, 0]),
        record(0, 8, &[0xB9]),
        record(0, 8, &[0x05, 0]),
    ];
    folder.write("a.tape", tape.concat());
    let said = folder.served("play b a.tape");
    for line in [
        "carried out 1\n",
        "ignored 6\n",
        "        1  11 the chip was asleep: others 1\n",
        "        2  12 no whole byte, or no such command: others 2\n",
        "        2  14 not write enabled (WEL was 0): programs 1, erases 1\n",
        "rise       programs 0, erases 0, register writes 0, ignored 6\n",
    ] {
        assert!(said.contains(line), "{line} in {said}");
    }
    let told = "play 1, a.tape on b of lab:\n\
                \x20 record 0000  02 page program at 0x002100: 14 not write enabled (WEL was 0)\n\
                \x20 record 0001  20 erase of 4 KB at 0x003000: 14 not write enabled (WEL was 0)\n\
                \x20 record 0002  no whole byte: 12 no whole byte, or no such command\n\
                \x20 record 0003  77 no such command: 12 no whole byte, or no such command\n\
                \x20 record 0004  06 write enable: 13 wrong byte count, or leftover bits\n\
                \x20 record 0006  05 read of the low status byte: 11 the chip was asleep\n\
                6 ignored\n";
    for call in [
        "explain --play 1",
        "explain --board b",
        "explain --department lab",
        "explain --department lab --month 2026-11",
    ] {
        assert_eq!(folder.served(call), told, "{call}");
    }
    assert_eq!(folder.json("explain --play 1")[1]["verdict"], 14);
    folder.whole("2026-11");
}

#[test]
fn a_refused_tape_is_kept_and_bills_nothing() {
    let folder = Folder::with_month("refused-tape");
    folder.write("good.tape", program(0, 0x11));
    folder.write("torn.tape", [0; 263]);
    folder.write("bad.tape", [program(1, 1), record(9, 0, &[])].concat());
    let line = "play b torn.tape good.tape bad.tape";
    let ran = folder.run(line);
    folder.failed(
        line,
        &ran,
        1,
        &["torn.tape: refused 30: ", "; and 1 more refused"],
    );
    assert!(
        ran.out.contains("play 2: good.tape: 3 records: programs 1"),
        "{ran:?}"
    );
    assert!(
        ran.out
            .contains("play 3: bad.tape: 1,056 bytes: record 3: refused 31: "),
        "{ran:?}"
    );
    assert_eq!(folder.json("board show b")["state"]["meter"]["programs"], 1);
    let explained = folder.served("explain --board b");
    assert!(explained.contains("refused 30: the tape is not whole records; nothing was played"));
    folder.fails(
        "play b good.tape torn.tape --strict",
        1,
        &["torn.tape: refused 30: "],
    );
    folder.whole("2026-11");
}

/// Every unit that a command changes is kept, and no other.
#[test]
fn every_unit_is_kept() {
    let folder = Folder::with_month("units");
    let full: Vec<u8> = (0..SIZE).map(|place| (place % 251) as u8).collect();
    folder.write("full.bin", &full);
    folder.served("board add f --department lab --image full.bin");
    let mut wanted = full;
    for (name, sent, span) in [
        ("20", &[0x20, 0x01, 0x2F, 0xFF][..], 0x12000..0x13000),
        ("52", &[0x52, 0x1F, 0x80, 0x01], 0x1F8000..0x200000),
        ("D8", &[0xD8, 0xE8, 0x12, 0x34], 0x80000..0x90000),
        ("60", &[0x60], 0..SIZE),
    ] {
        let tape = [
            record(0, 8, &[6]),
            record(0, 8, sent),
            record(1, 0, &[]),
            program(0xFF, 0x5A),
        ];
        folder.write(name, tape.concat());
        folder.served(&format!("play f {name}"));
        wanted[span].fill(0xFF);
        wanted[0xFF00] &= 0x5A;
        assert!(folder.array("f") == wanted, "{name}");
    }
    folder.whole("2026-11");
}

#[test]
fn transactions_are_shown_and_kept() {
    let folder = Folder::with_month("transact");
    assert_eq!(
        folder.served("transact b 06"),
        "out        FF\nverdict    0, carried out: write enable\n\
         registers  0x0002 awake, BUSY 0 WEL 1 BP 0 TB 0 SEC 0 SRP0 0 SRP1 0 QE 0, setting 0 (none)\n\
         meter      programs 0, erases 0, register writes 0, ignored 0\n"
    );
    folder.served("transact b 020000FE 11 22 33 44");
    let said = folder.served("transact b 03 00 00 00");
    assert!(
        said.contains("verdict    10, ignored: the chip was busy\n"),
        "{said}"
    );
    let said = folder.served("transact b finish");
    assert!(said.starts_with("registers  0x0000 awake"), "{said}");
    assert!(said.ends_with("meter      programs 1, erases 0, register writes 0, ignored 1\n"));
    let said = folder.served("transact b 03 00 00 FE 00 00 00 --dry-run");
    assert!(
        said.starts_with("out        FF FF FF FF 11 22 FF\n"),
        "{said}"
    );
    let json = folder.json("transact b 05 00");
    assert_eq!(
        (&json["out"], &json["verdict"], &json["play"]),
        (&"FF 00".into(), &0.into(), &5.into())
    );
    folder.whole("2026-11");
}

#[test]
fn the_bench_readings_over_the_command() {
    let folder = Folder::with_board("bench");
    folder.board_in("b8", "0x0003", "yes", [0; 4]);
    assert!(
        folder
            .served("transact b8 05 00")
            .contains("out        FF 03\n")
    );
    folder.board_in("b9", "0", "no", [0; 4]);
    let said = folder.served("transact b9 05 00");
    assert!(said.contains("out        FF FF\nverdict    11, ignored: the chip was asleep\n"));
    folder.board_in("b10", "0x0202", "yes", [0; 4]);
    assert!(folder.served("transact b10 01 04").contains("0x0207 awake"));
    assert!(
        folder
            .served("transact b10 finish")
            .contains("0x0204 awake")
    );
    folder.board_in("locked", "0x0144", "yes", [0; 4]);
    let said = folder.served("transact locked power-cycle");
    assert!(
        said.contains("0x0044 awake") && said.contains("setting 17 (top 4k)"),
        "{said}"
    );
}

#[test]
fn leftover_bits_and_the_level_of_wp_are_sent() {
    let folder = Folder::with_board("bits");
    folder.board_in("w", "0x0082", "yes", [0; 4]);
    for (call, says) in [
        (
            "transact w 01 00 --wp low",
            "15, ignored: the status was locked",
        ),
        ("transact w 01 00 --bits 3", "13, ignored"),
        ("transact w none --bits 3", "12, ignored"),
        ("transact w 01 00 --wp high", "0, carried out: status write"),
    ] {
        let said = folder.served(call);
        assert!(
            said.contains(&format!("verdict    {says}")),
            "{call}: {said}"
        );
    }
}

#[test]
fn an_image_of_any_size_is_flashed() {
    let folder = Folder::with_month("flash");
    let image: Vec<u8> = (0..150_001).map(|place| (place % 253) as u8).collect();
    folder.write("image.bin", &image);
    let dry = folder.served("flash b image.bin --at 0x800 --dry-run");
    assert!(
        dry.contains("b would hold image.bin after 3 jobs\n"),
        "{dry}"
    );
    assert!(folder.array("b") == vec![0xFF; SIZE]);
    let said = folder.served("flash b image.bin --at 0x800");
    assert!(said.contains("amount           11.72 EUR\n"), "{said}");
    assert!(
        said.ends_with("b holds image.bin: 3 jobs, plays 1 to 3\n"),
        "{said}"
    );
    let array = folder.array("b");
    assert!(array[0x800..][..image.len()] == image[..]);
    assert!(array[..0x800].iter().all(|&byte| byte == 0xFF));
    let again = folder.served("flash b image.bin --at 0x800");
    assert!(again.ends_with("b holds image.bin already\n"), "{again}");
    // Three bytes in the middle of a sector; what lies beside them stays.
    folder.write("patch.bin", [0xFF, 0xFE, 0xFD]);
    let said = folder.served("flash b patch.bin --at 0x5003");
    assert!(
        said.contains("programs         16\nerases           1\n"),
        "{said}"
    );
    let mut wanted = array;
    wanted[0x5003..0x5006].copy_from_slice(&[0xFF, 0xFE, 0xFD]);
    assert!(folder.array("b") == wanted);
    folder.whole("2026-11");
}

#[test]
fn a_flash_that_cannot_be_keeps_nothing() {
    let folder = Folder::with_board("no-flash");
    folder.write("image.bin", [0x11; 3]);
    folder.write("empty.bin", []);
    folder.fails(
        "flash b empty.bin",
        2,
        &["empty.bin: there is no byte in it"],
    );
    folder.fails(
        "flash b image.bin --at 0x1ffffe",
        2,
        &["image.bin: leads off the chip"],
    );
    folder.board_in("guarded", "0x0044", "yes", [0; 4]);
    let says = ["board guarded: at 0x1FFF00: refused 25: "];
    folder.fails("flash guarded image.bin --at 0x1fff80", 1, &says);
    folder.served("flash guarded image.bin --at 0x1fef80 --dry-run");
    folder.board_in("asleep", "0", "no", [0; 4]);
    let says = ["board asleep: not ready: it would be ignored for verdict 11 the chip was asleep"];
    folder.fails("flash asleep image.bin", 1, &says);
    folder.board_in("busy", "0x0003", "yes", [0; 4]);
    folder.fails(
        "flash busy image.bin",
        1,
        &["board busy: not ready: ", "verdict 10"],
    );
    folder.board_in("full", "0", "yes", [u32::MAX, 0, 0, 0]);
    folder.fails("flash full image.bin", 1, &["board full: ", "refused 7: "]);
}
