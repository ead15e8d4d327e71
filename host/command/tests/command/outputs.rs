//! What is written where: nothing over what is there or read, no special file
//! replaced, nothing lost in silence, and exit statuses 0, 1 and 2 only.

use crate::common::{Folder, SIZE, TUNEBRIAR, record};
use std::os::unix::fs::{FileTypeExt, MetadataExt, PermissionsExt, symlink};

#[test]
fn what_is_there_is_not_replaced_unasked() {
    let folder = Folder::with_month("there");
    folder.write("a.txt", "guard 0\n");
    folder.served("job a.txt a.job a.payload");
    folder.served("translate a.job a.payload a.tape");
    let there = "is there already; --force replaces it";
    for call in [
        "job a.txt a.job b.payload",
        "job a.txt b.job a.payload",
        "job a.txt a.job a.payload --back",
        "translate a.job a.payload a.tape",
        "tape a.txt a.tape --back",
        "board export b a.tape",
        "board export b b.array a.tape",
        "month bill 2026-11 --csv a.tape",
        "month bill 2026-11 --html a.tape",
        "ledger export 2026-11 a.tape",
    ] {
        folder.fails(call, 2, &[there]);
    }
    folder.served("translate a.job a.payload a.tape --force");
}

#[test]
fn what_is_read_is_never_the_output() {
    let folder = Folder::with_month("sources");
    let says = ["is read by this call, and cannot be its output"];
    folder.write("big.bin", [7; 600]);
    folder.write("a.txt", "lay 0 from big.bin at 0 for 10\n");
    std::fs::hard_link(folder.path.join("big.bin"), folder.path.join("twin.bin")).expect("a link");
    symlink("big.bin", folder.path.join("link.bin")).expect("a link");
    for payload in ["big.bin", "./big.bin", "link.bin", "twin.bin"] {
        folder.fails(&format!("job a.txt b.job {payload} --force"), 2, &says);
    }
    folder.fails("job a.txt ./a.txt b --force", 2, &says);
    folder.served("job a.txt a.job a.payload");
    folder.fails("job a.job a.job a.payload --back --force", 2, &says);
    folder.fails("translate a.job a.payload a.payload --force", 2, &says);
    folder.write("t.txt", "finish\n");
    folder.fails("tape t.txt t.txt --force", 2, &says);
    folder.fails("job a.txt c ./c", 2, &["would be written twice"]);
}

#[test]
fn modes_owners_and_links_are_kept() {
    let folder = Folder::with_board("links");
    let path = |name: &str| folder.path.join(name);
    folder.write("b.array", "old");
    symlink("b.array", path("link")).expect("a link");
    std::fs::set_permissions(path("b.array"), PermissionsExt::from_mode(0o640)).expect("a mode");
    let _ = std::os::unix::fs::chown(path("b.array"), Some(1234), Some(1234));
    let owner = |name| {
        std::fs::metadata(path(name))
            .map(|file| (file.uid(), file.gid()))
            .expect("a file")
    };
    let before = owner("b.array");
    folder.served("board export b link --force");
    assert!(
        std::fs::symlink_metadata(path("link"))
            .expect("a link")
            .is_symlink()
    );
    assert_eq!(folder.bytes("b.array").len(), SIZE);
    assert_eq!(owner("b.array"), before);
    let mode = std::fs::metadata(path("b.array")).expect("a file").mode();
    assert_eq!(mode & 0o777, 0o640);
    std::fs::hard_link(path("b.array"), path("twin")).expect("a link");
    folder.write("t.txt", "finish\n");
    folder.served("tape t.txt b.array --force");
    assert_eq!(
        folder.bytes("twin"),
        record(1, 0, &[]),
        "a hard link is one file still"
    );
    symlink("nowhere", path("dangling")).expect("a link");
    folder.fails(
        "tape t.txt dangling --force",
        2,
        &["it is a link to nothing"],
    );
}

#[test]
fn special_files_are_written_to_and_not_replaced() {
    let folder = Folder::with_board("special");
    folder.write("t.txt", "finish\n");
    let ran = folder.shell("tunebriar tape t.txt /dev/stdout | wc -c");
    assert_eq!(ran.out, "287\n", "the tape and its line: {ran:?}");
    let ran = folder.shell(
        "mkfifo pipe && { wc -c <pipe & tunebriar tape t.txt pipe >/dev/null; echo $?; wait; }",
    );
    assert!(
        ran.out.contains("264\n") && ran.out.contains("0\n"),
        "{ran:?}"
    );
    let pipe = std::fs::metadata(folder.path.join("pipe")).expect("a pipe");
    assert!(pipe.file_type().is_fifo());
    let ran = folder.shell("tunebriar tape t.txt /dev/null --force; stat -c %F /dev/null");
    assert!(ran.out.ends_with("character special file\n"), "{ran:?}");
    std::fs::create_dir(folder.path.join("folder")).expect("a folder");
    folder.fails(
        "tape t.txt folder --force",
        2,
        &["folder: cannot be written: it is no file"],
    );
}

#[test]
fn a_dash_is_standard_input_or_output() {
    let folder = Folder::with_board("dash");
    let ran = folder.shell("echo finish | tunebriar tape - - | tunebriar list -");
    assert_eq!(ran.out, "0000 F\n", "{ran:?}");
    let ran = folder.shell("echo 'send 06' | tunebriar tape - - 2>/dev/null | tunebriar play b -");
    assert!(
        ran.out.starts_with("-: 1 of 1 records played, play 1\n"),
        "{ran:?}"
    );
    let ran = folder.shell("tunebriar board export b - 2>/dev/null | wc -c");
    assert_eq!(ran.out, "2097152\n");
    let ran = folder.shell("tunebriar translate - - a.tape </dev/null");
    assert_eq!(ran.status, 2);
    assert!(
        ran.err.contains("standard input is read once only"),
        "{ran:?}"
    );
}

/// What is lost is told; only a reader that has seen enough is forgiven.
#[test]
fn an_output_that_is_lost_is_told() {
    let folder = Folder::with_month("lost");
    folder.write("long.tape", record(1, 0, &[]).repeat(5_000));
    for call in [
        "--help",
        "board list",
        "list long.tape --long",
        "month bill 2026-11",
        "transact b 05",
    ] {
        let ran = folder.shell(&format!("tunebriar {call} >/dev/full"));
        assert_eq!(ran.status, 2, "{call}: {ran:?}");
        assert!(
            ran.err.contains("standard output: cannot be written: "),
            "{call}: {ran:?}"
        );
        let ran = folder.shell(&format!("tunebriar {call} >/dev/full 2>/dev/full"));
        assert_eq!(ran.status, 2, "{call}");
    }
    for call in ["no-such", "list no.tape", "list", "play b no.tape"] {
        assert_eq!(
            folder
                .shell(&format!("tunebriar {call} 2>/dev/full"))
                .status,
            2,
            "{call}"
        );
    }
    folder.write("torn.tape", [0]);
    assert_eq!(
        folder.shell("tunebriar list torn.tape 2>/dev/full").status,
        1
    );
    let ran = folder.shell("{ tunebriar list long.tape --long; echo $? >&2; } | head -n 1");
    assert_eq!(
        (ran.out.as_str(), ran.err.as_str()),
        ("0000  finish\n", "0\n")
    );
}

#[test]
fn a_name_that_is_not_text_is_a_name() {
    use std::os::unix::ffi::OsStrExt;
    let folder = Folder::with_board("latin");
    let name = std::ffi::OsStr::from_bytes(b"caf\xE9.tape");
    std::fs::write(folder.path.join(name), record(1, 0, &[])).expect("written");
    let output = folder
        .command()
        .args(["play", "b"])
        .arg(name)
        .output()
        .expect("it runs");
    assert_eq!(output.status.code(), Some(0), "{output:?}");
}

/// No room in the middle of a write: the old file is whole, and nothing lies
/// beside it.
#[test]
fn no_room_in_the_middle_of_a_write() {
    let folder = Folder::with_board("no-room");
    folder.write("b.array", "old");
    let before = folder.all();
    for call in ["board export b b.array --force", "board export b new.array"] {
        let ran = folder.shell(&format!(
            "trap '' XFSZ; ulimit -f 100; exec {TUNEBRIAR} {call}"
        ));
        assert_eq!(ran.status, 2, "{ran:?}");
        assert!(ran.err.contains("array: cannot be written: "), "{ran:?}");
        assert!(folder.all() == before, "{call}");
    }
}

/// What lies under a hidden name is nobody's to follow, empty or remove.
#[test]
fn hidden_files_of_others_stay() {
    let folder = Folder::with_board("hidden");
    folder.write("t.txt", "finish\n");
    folder.write("precious", "precious");
    folder.write("a.tape", "old");
    folder.write(".b.tape.tunebriar", "mine");
    folder.write("b.tape", "old");
    symlink("precious", folder.path.join(".a.tape.tunebriar")).expect("a link");
    folder.served("tape t.txt a.tape --force");
    folder.served("tape t.txt b.tape --force");
    assert_eq!(folder.text("precious"), "precious");
    assert_eq!(folder.text(".b.tape.tunebriar"), "mine");
    assert_eq!(folder.bytes("b.tape").len(), 264);
    let hidden = folder
        .names()
        .into_iter()
        .filter(|name| name.starts_with('.'));
    assert_eq!(hidden.count(), 2, "nothing of ours is left");
}

/// No book is an output, also of calls that open none.
#[test]
fn a_book_is_never_the_output() {
    let folder = Folder::with_month("books");
    folder.write("t.txt", "finish\n");
    folder.served("pool new --pool other");
    symlink("tunebriar.pool", folder.path.join("link.pool")).expect("a link");
    let says = ["is the pool or belongs to it, and cannot be an output"];
    for call in [
        "tape t.txt tunebriar.pool --force",
        "tape t.txt link.pool --force",
        "tape t.txt ./tunebriar.pool-journal",
        "tape t.txt tunebriar.pool-wal --pool link.pool",
        "tape t.txt new --pool new",
        "board export b tunebriar.pool --force",
        "month bill 2026-11 --csv tunebriar.pool --force",
        "month bill 2026-11 --csv tunebriar.pool-shm",
    ] {
        folder.fails(call, 2, &says);
    }
    let says = ["other: is a SQLite book, and cannot be an output"];
    folder.fails("tape t.txt other --force", 2, &says);
}

/// A name of the file that a stream goes to is that stream.
#[test]
fn a_stream_that_is_a_file_is_written_on() {
    let folder = Folder::with_board("streams");
    folder.write("t.txt", "finish\n");
    for name in ["/dev/stdout", "/dev/fd/1", "/proc/self/fd/1", "log"] {
        let call = format!("echo old >log; tunebriar tape t.txt {name} >>log");
        let ran = folder.shell(&call);
        assert_eq!((ran.status, ran.out.as_str()), (0, ""), "{call}: {ran:?}");
        assert!(ran.err.ends_with(": 1 records\n"), "{call}: {ran:?}");
        assert_eq!(folder.bytes("log").len(), 4 + 264, "{call}");
    }
    let ran = folder.shell("echo old >log; tunebriar tape t.txt /dev/stderr 2>>log");
    assert_eq!(ran.out, "/dev/stderr: 1 records\n", "{ran:?}");
    assert_eq!(folder.bytes("log").len(), 4 + 264);
}

/// Whoever cannot see the answer is told that the play was kept all the same.
#[test]
fn what_is_in_the_book_is_told() {
    let folder = Folder::with_board("in-the-book");
    folder.write("t.tape", record(1, 0, &[]));
    let lost = "tunebriar: standard output: cannot be written: no room is left";
    for (call, kept) in [
        ("transact b 06", "; play 1 is in the book"),
        ("play b t.tape t.tape", "; plays 2 to 3 are in the book"),
        ("board add c --department d", "; the change is in the book"),
        ("play b t.tape --dry-run", ""),
        ("board list", ""),
    ] {
        let ran = folder.shell(&format!("tunebriar {call} >/dev/full"));
        assert_eq!(ran.status, 2, "{call}: {ran:?}");
        assert_eq!(ran.err, format!("{lost}{kept}\n"), "{call}");
    }
}
