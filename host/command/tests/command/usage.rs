//! Wrong usage: exit status 2, one line that says what is wrong. And help.

use crate::common::Folder;

#[test]
fn the_call_itself() {
    let folder = Folder::new("usage");
    for (call, says) in [
        ("sell", "'sell'"),
        ("list", "required arguments were not provided: <TAPE>"),
        ("list a b", "'b'"),
        ("list a --longer", "'--longer'"),
        ("board add b", "--department <DEPARTMENT>"),
        ("board add b --department d --chip W25Q16", "FM25Q16"),
        ("transact b", "<HEX>"),
        ("transact b 05 --bits 8", "8"),
        ("transact b 05 --wp up", "high, low"),
        ("month open 2026-13 --prices p", "'2026-13' is no month"),
        ("month close november", "'november' is no month"),
        ("explain", "--play <NUMBER>"),
        ("play b t --first 1", "--dry-run"),
        ("translate a a t --setting 1 --board b", "--board"),
        ("list a --board b", "--long"),
        ("pool new --wait x", "'x'"),
    ] {
        folder.fails(call, 2, &[says]);
    }
    assert_eq!(folder.run("").status, 2);
}

#[test]
fn values_that_say_nothing() {
    let folder = Folder::with_board("values");
    folder.write("a", []);
    for (call, says) in [
        (
            "board add c --department d --setting 32",
            "32 is no setting 0 to 31",
        ),
        (
            "board add c --department d --setting middle",
            "'middle' is no setting",
        ),
        ("translate a a t --setting 256", "256 is no setting 0 to 31"),
        ("transact b 0", "'0' is not bytes in hex"),
        ("transact b 0x06", "'0x06' is not bytes in hex"),
        ("transact b 06 finish", "'finish' is not bytes in hex"),
        (
            "transact b finish --bits 1",
            "an event has no --wp low and no --bits",
        ),
        ("transact c 06", "there is no board 'c'"),
        ("explain --play 1", "there is no play 1"),
        ("explain --department x", "there is no department 'x'"),
        ("month bill 2026-11", "2026-11 was never opened"),
        ("play b a --now yesterday", "--now is a time in UTC"),
        ("flash b a --at here", "'here' is not a number"),
    ] {
        folder.fails(call, 2, &[says]);
    }
    let long = format!("transact b {}", "00".repeat(261));
    folder.fails(&long, 2, &["261 bytes are over 260"]);
}

#[test]
fn names_that_no_bill_can_bear() {
    let folder = Folder::with_board("names");
    for name in ["total", "=1+1", "-x", "a\u{1b}b", "a\nb", " ", "\u{202E}x"] {
        let department = format!("--department={name}");
        for words in [
            ["board", "add", &department, "--", "c"],
            ["board", "add", "--department=d", "--", name],
        ] {
            let ran = folder.words(&words);
            assert_eq!(ran.status, 2, "{name:?}: {ran:?}");
            assert_eq!(ran.err.lines().count(), 1, "{ran:?}");
            assert!(!ran.err.contains('\u{1b}'), "{ran:?}");
        }
    }
    assert!(folder.served("board list").ends_with("1 boards\n"));
    folder.fails(
        "board add b --department lab",
        2,
        &["there is a board 'b' already"],
    );
}

#[test]
fn help_is_there_for_all() {
    let folder = Folder::new("help");
    let overview = folder.served("--help");
    for name in [
        "pool",
        "board",
        "play",
        "transact",
        "flash",
        "serve",
        "month",
        "explain",
        "audit",
        "ledger",
        "job",
        "quote",
        "translate",
        "tape",
        "list",
        "completions",
    ] {
        assert!(
            overview.contains(&format!("  {name} ")),
            "{name}: {overview}"
        );
        let help = folder.served(&format!("{name} --help"));
        assert!(help.contains("Usage: tunebriar"), "{help}");
    }
    assert!(folder.served("--version").starts_with("tunebriar "));
    let ran = folder.run("completions bash");
    assert_eq!(ran.status, 0);
    assert!(ran.out.contains("_tunebriar"), "{}", ran.out);
}
