//! Files that cannot be read or understood: exit status 2, the file and the
//! line, and no file changed.

use crate::common::{Folder, PRICES};

#[test]
fn missing_files_and_folders() {
    let folder = Folder::with_board("missing");
    let says = ["no.file: cannot be read: no such file or folder"];
    for call in [
        "list no.file",
        "tape no.file b.tape",
        "job no.file b.job b.payload",
        "job b.txt no.file no.file --back",
        "translate no.file no.file b.tape",
        "quote no.file no.file",
        "play b no.file",
        "flash b no.file",
        "board add c --department d --image no.file",
        "board import c no.file no.file --department d",
        "month open 2026-11 --prices no.file",
        "ledger import no.file",
    ] {
        folder.fails(call, 2, &says);
    }
    std::fs::create_dir(folder.path.join("folder")).expect("a folder");
    let says = ["folder: cannot be read: it is a folder"];
    folder.fails("list folder", 2, &says);
    let says = ["no/b.array: cannot be written: no such file"];
    folder.fails("board export b no/b.array", 2, &says);
    folder.fails("board export b ..", 2, &["..: cannot be written"]);
    folder.write("latin.txt", b"# caf\xE9\n");
    folder.fails(
        "job latin.txt a b",
        2,
        &["latin.txt: line 1: this is not text in UTF-8"],
    );
}

#[test]
fn states_that_cannot_be_understood() {
    let folder = Folder::with_board("states");
    folder.served("board export b b.array b.state");
    let good = folder.text("b.state");
    for (from, to, says) in [
        ("awake = yes\n", "", "'awake' is missing"),
        ("awake = yes", "awake = maybe", "line 4: awake is yes or no"),
        (
            "awake = yes",
            "awake = yes\nawake = yes",
            "line 5: 'awake' stands in line 4 already",
        ),
        (
            "0x0000",
            "0x10000",
            "line 3: a status of 16 bits is not 0x10000",
        ),
        ("0x0000", "low", "line 3: 'low' is not a number"),
        (
            "erases = 0",
            "erases = 4294967296",
            "line 6: 4294967296 is over 4294967295",
        ),
        ("erases = 0", "erases = -1", "line 6: '-1' is not a number"),
        (
            "erases = 0",
            "erasers = 0",
            "line 6: 'erasers' is none of chip, status, awake",
        ),
        (
            "erases = 0",
            "erases 0",
            "line 6: 'erases 0' is not KEY = VALUE",
        ),
        (
            "FM25Q16",
            "W25Q16",
            "line 2: the chip 'W25Q16' is not known",
        ),
    ] {
        folder.write("bad.state", good.replace(from, to));
        let says = [&format!("bad.state: {says}")[..]];
        folder.fails("board import c b.array bad.state --department d", 2, &says);
    }
}

#[test]
fn jobs_that_cannot_be_understood() {
    let folder = Folder::new("bad-jobs");
    folder.write("small.bin", [0; 8]);
    for (line, says) in [
        ("paint 0", "line 2: this is no erase, lay or guard"),
        ("erase 8k 0", "line 2: an erase is 4k, 32k or 64k"),
        ("erase 4k", "line 2: an erase is 4k, 32k or 64k"),
        ("erase 4k here", "line 2: 'here' is not a number"),
        ("erase all 0x100", "line 2: an erase is 4k, 32k or 64k"),
        ("lay 0x100", "line 2: a lay goes on with"),
        ("lay 0x100 hex 1", "line 2: '1' is not bytes in hex"),
        (
            "lay 0x100000000 hex 11",
            "line 2: 0x100000000 is over 4294967295",
        ),
        (
            "lay 0 from small.bin at 4 for 5",
            "line 2: small.bin: ends before place 9",
        ),
        ("lay 0 from \"small.bin", "line 2: a quote is left open"),
        ("lay 0 from no.bin", "line 2: no.bin: cannot be read"),
        ("guard", "line 2: this is no erase, lay or guard"),
        ("guard top", "line 2: 'top' is no setting"),
        ("guard 256", "line 2: 256 is no setting"),
        (
            "lay 0 hex 11\npayload from small.bin",
            "line 3: 'payload from FILE' comes once",
        ),
    ] {
        folder.write("bad.txt", format!("# a job\n{line}\n"));
        let says = [&format!("bad.txt: {says}")[..]];
        folder.fails("job bad.txt b.job b.payload", 2, &says);
    }
}

#[test]
fn tape_texts_that_cannot_be_understood() {
    let folder = Folder::new("bad-tapes");
    let long = format!("send {}", "00 ".repeat(261));
    for (line, says) in [
        ("06", "line 1: this is no send, finish or power-cycle"),
        ("finish 1", "line 1: this is no send"),
        ("send 6", "line 1: '6' is not bytes in hex"),
        ("send bits 8 06", "line 1: 8 leftover bits are over 7"),
        (long.as_str(), "line 1: 261 bytes are over 260"),
    ] {
        folder.write("bad.txt", format!("{line}\n"));
        folder.fails("tape bad.txt b.tape", 2, &[&format!("bad.txt: {says}")]);
    }
}

#[test]
fn prices_that_cannot_be_understood() {
    let folder = Folder::with_board("bad-prices");
    for (from, to, says) in [
        ("currency = EUR\n", "", "'currency' is missing"),
        ("currency = EUR", "currency =", "line 1: "),
        ("erase = 1.50\n", "", "'erase' is missing"),
        ("erase = 1.50", "erase = -1", "line 3: "),
        ("erase = 1.50", "erase = 0.0000001", "line 3: "),
        ("erase = 1.50", "erase = 99999999999999999999", "line 3: "),
        (
            "erase = 1.50",
            "erase = 1\nerase = 2",
            "line 4: 'erase' stands in line 3 already",
        ),
        (
            "erase = 1.50",
            "erase 1.50",
            "line 3: 'erase 1.50' is not KEY = VALUE",
        ),
        (
            "erase = 1.50",
            "read = 1",
            "line 3: 'read' is none of currency",
        ),
    ] {
        folder.write("bad.txt", PRICES.replace(from, to));
        let says = [&format!("bad.txt: {says}")[..]];
        folder.fails("month open 2026-11 --prices bad.txt", 2, &says);
    }
}

/// A byte order mark and carriage returns, in every text that is read.
#[test]
fn texts_of_other_systems_are_taken() {
    let folder = Folder::with_board("dos");
    let dos = |text: &str| format!("\u{FEFF}{}", text.replace('\n', "\r\n"));
    folder.write("prices.txt", dos(PRICES));
    folder.served("month open 2026-11 --prices prices.txt");
    folder.write("a.txt", dos("erase 4k 0\nlay 0 hex \\\n 11\n"));
    folder.served("job a.txt a.job a.payload");
    folder.write("t.txt", dos("send 06\nfinish\n"));
    folder.served("tape t.txt t.tape");
    folder.served("board export b b.array b.state");
    folder.write("b.state", dos(&folder.text("b.state")));
    folder.served("board import c b.array b.state --department d");
    folder.write(
        "ledger.csv",
        dos("department;board;tape\nlab;b;t.tape\nd;c;t.tape\n"),
    );
    folder.served("ledger import ledger.csv");
}

/// What can be read only once is read before the book is held, so that nobody
/// waits for it, and a pipe is opened once.
#[test]
fn nobody_waits_for_a_pipe() {
    let folder = Folder::with_board("pipes");
    folder.served("board add c --department lab");
    folder.write("t.txt", "finish\n");
    folder.served("tape t.txt t.tape");
    for dry in ["", "--dry-run"] {
        let ran = folder.shell(&format!(
            "mkfifo p; (sleep 8 >p) & tunebriar play b - {dry} <p >/dev/null & sleep 2; \
             tunebriar --wait 1 transact c 06 >/dev/null; echo $?; rm p; kill %1 %2 2>/dev/null; :"
        ));
        assert_eq!((ran.out.as_str(), ran.err.as_str()), ("0\n", ""), "{dry}");
    }
    let ran = folder.shell("mkfifo f; cat t.tape >f & tunebriar play b f");
    assert!(ran.out.starts_with("f: 1 of 1 records played"), "{ran:?}");
    folder.write("l.csv", "department,board,tape\nlab,c,f\n");
    let ran = folder.shell("cat t.tape >f & tunebriar ledger import l.csv");
    assert!(ran.out.starts_with("l.csv: 1 tapes played"), "{ran:?}");
    folder.write("l.csv", "department,array,state,tape\nlab,f,f,t.tape\n");
    let says = ["l.csv: line 2: f: cannot be read: a ledger's chip is in"];
    folder.fails("ledger import l.csv", 2, &says);
}

/// A file that is too long is refused by its length; here, the disk has none of
/// its bytes.
#[test]
fn a_file_that_is_too_long_is_not_read() {
    let folder = Folder::with_board("too-long");
    let file = std::fs::File::create(folder.path.join("big")).expect("a file");
    file.set_len(1 << 40).expect("a length, if no bytes");
    for call in ["play b big", "list --long big", "tape --back x big"] {
        let ran = folder.run(call);
        folder.failed(call, &ran, 2, &["big: has over 976,800,000 bytes"]);
    }
    let ran = folder.run("job big a.job a.payload");
    folder.failed("job", &ran, 2, &["big: has over 67,108,864 bytes"]);
}

/// What the text says is in the JSON too.
#[test]
fn listings_and_refusals_for_programs() {
    let folder = Folder::with_board("for-programs");
    folder.write("t.txt", "send 06\nfinish\n");
    folder.served("tape t.txt t.tape");
    let listed = folder.json("list t.tape");
    assert_eq!(listed[0]["command"], 6);
    assert_eq!(listed[1]["kind"], "finish");
    folder.write("torn.tape", [0]);
    assert_eq!(folder.run("play b torn.tape").status, 1);
    let refused = folder.json("explain --play 1");
    assert_eq!(refused[0]["tape"], "torn.tape");
    assert_eq!(refused[0]["refusal"]["number"], 30);
}
