//! Boards: added, listed, shown, exported, imported.

use crate::common::{Folder, SIZE};

#[test]
fn a_board_is_erased_or_an_image() {
    let folder = Folder::with_board("boards");
    assert!(folder.array("b") == vec![0xFF; SIZE]);
    let image: Vec<u8> = (0..SIZE).map(|place| (place % 251) as u8).collect();
    folder.write("image.bin", &image);
    let said = folder.served("board add c --department lab --image image.bin --setting top-4k");
    assert_eq!(
        said,
        "c: a board of lab, from image.bin\nregisters  0x0044 awake, BUSY 0 WEL 0 BP 1 TB 0 SEC 1 \
         SRP0 0 SRP1 0 QE 0, setting 17 (top 4k)\n"
    );
    assert!(folder.array("c") == image);
    assert_eq!(
        folder.served("board list"),
        "lab  b  programs 0, erases 0, register writes 0, ignored 0\n\
         lab  c  programs 0, erases 0, register writes 0, ignored 0\n2 boards\n"
    );
    let shown = folder.served("board show c");
    assert!(
        shown.starts_with(
            "board      c\ndepartment lab\nchip       FM25Q16\nadded      2026-11-16T10:00:00Z\n\
             registers  0x0044 awake"
        ),
        "{shown}"
    );
    assert_eq!(folder.json("board show c")["state"]["setting"], 17);
    folder.fails(
        "board add d e b --department lab",
        2,
        &["there is a board 'b' already"],
    );
    folder.served("board add d e --department lab");
    assert!(folder.served("board list").ends_with("4 boards\n"));
}

#[test]
fn what_is_exported_is_imported() {
    let folder = Folder::with_board("export");
    folder.served("transact b 06");
    folder.served("transact b 02 00 00 FE 11 22 33 44");
    let said = folder.served("board export b b.array b.state");
    assert!(
        said.starts_with("b.array: 2,097,152 bytes\nb.state: 0x0003 awake"),
        "{said}"
    );
    assert_eq!(
        folder.text("b.state"),
        "# tunebriar state: registers and meter\nchip = FM25Q16\nstatus = 0x0003\nawake = yes\n\
         programs = 1\nerases = 0\nregister-writes = 0\nignored = 0\n"
    );
    folder.served("board import c b.array b.state --department other");
    folder.served("board export c c.array c.state");
    assert!(folder.bytes("c.array") == folder.bytes("b.array"));
    assert_eq!(folder.text("c.state"), folder.text("b.state"));
    let array = folder.bytes("c.array");
    assert_eq!(
        (array[0xFE], array[0xFF], array[0], array[1]),
        (0x11, 0x22, 0x33, 0x44)
    );
}

#[test]
fn a_broken_chip_comes_into_no_pool() {
    let folder = Folder::with_board("broken");
    folder.state("good.state", "0", "yes", [0; 4]);
    for size in [0, SIZE - 1, SIZE + 1] {
        folder.write("bad.array", vec![0xFF; size]);
        let says = ["bad.array: refused 2: the array has not the chip's size"];
        folder.fails("board add c --department d --image bad.array", 1, &says);
        folder.fails(
            "board import c bad.array good.state --department d",
            1,
            &says,
        );
    }
    folder.write("good.array", vec![0xFF; SIZE]);
    for (status, awake) in [
        ("0x0001", "yes"),
        ("0x0003", "no"),
        ("0x0400", "yes"),
        ("0x8000", "yes"),
    ] {
        folder.state("bad.state", status, awake, [0; 4]);
        let says = ["bad.state: refused 3: the registers are not well formed"];
        folder.fails(
            "board import c good.array bad.state --department d",
            1,
            &says,
        );
    }
    assert!(folder.served("board list").ends_with("1 boards\n"));
}

#[test]
fn a_pool_is_made_once_and_is_told_from_other_files() {
    let folder = Folder::with_board("pools");
    folder.fails("pool new", 2, &["tunebriar.pool: is there already"]);
    folder.write(
        "text",
        "no pool at all, but long enough to be taken for one\n".repeat(100),
    );
    folder.fails("board list --pool text", 2, &["text: this is no pool"]);
    folder.fails("pool new --pool text", 2, &["text: is there already"]);
    folder.fails(
        "board list --pool no.pool",
        2,
        &["no.pool: there is no such pool"],
    );
    folder.write("empty", []);
    folder.fails("board list --pool empty", 2, &["empty: this is no pool"]);
    folder.fails("board list --pool .", 2, &[".: this is no pool"]);
    rusqlite::Connection::open(folder.path.join("other.db"))
        .and_then(|book| book.execute_batch("CREATE TABLE other (id INTEGER)"))
        .expect("another book");
    folder.fails(
        "board list --pool other.db",
        2,
        &["other.db: this is no pool"],
    );
    std::fs::hard_link(
        folder.path.join("tunebriar.pool"),
        folder.path.join("second"),
    )
    .expect("a link");
    folder.fails("board list", 2, &["tunebriar.pool: has a second name"]);
}
