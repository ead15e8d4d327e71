//! A folder of its own for each test, and the command run in it.

use rusqlite::Connection;
use serde_json::Value;
use std::ffi::OsString;
use std::fs;
use std::path::PathBuf;
use std::process::{Command, Output};
use std::sync::{Mutex, PoisonError};

/// The command under test.
pub const TUNEBRIAR: &str = env!("CARGO_BIN_EXE_tunebriar");
/// Bytes of an array.
pub const SIZE: usize = 2_097_152;
/// The time in every book, so that outputs are the same each time.
pub const NOW: &str = "2026-11-16T10:00:00Z";
/// Prices of one of each.
pub const PRICES: &str =
    "currency = EUR\nprogram = 0.02\nerase = 1.50\nregister-write = 0.10\nignored = 0\n";

/// A process is in one folder at a time.
static HERE: Mutex<()> = Mutex::new(());

/// A test's folder, empty at the start.
pub struct Folder {
    pub path: PathBuf,
}

/// What a call came to.
#[derive(Debug)]
pub struct Ran {
    pub status: i32,
    pub out: String,
    pub err: String,
}

impl From<Output> for Ran {
    fn from(output: Output) -> Ran {
        Ran {
            status: output.status.code().unwrap_or(-1),
            out: String::from_utf8(output.stdout).expect("text"),
            err: String::from_utf8(output.stderr).expect("text"),
        }
    }
}

impl Folder {
    pub fn new(name: &str) -> Folder {
        let path = PathBuf::from(env!("CARGO_TARGET_TMPDIR")).join(name);
        let _ = fs::remove_dir_all(&path);
        fs::create_dir_all(&path).expect("a folder");
        Folder { path }
    }

    /// With a pool, and in it an erased board `b` of the department `lab`.
    pub fn with_board(name: &str) -> Folder {
        let folder = Folder::new(name);
        folder.served("pool new");
        folder.served("board add b --department lab");
        folder
    }

    /// With an open month as well.
    pub fn with_month(name: &str) -> Folder {
        let folder = Folder::with_board(name);
        folder.write("prices.txt", PRICES);
        folder.served("month open 2026-11 --prices prices.txt");
        folder
    }

    pub fn command(&self) -> Command {
        let mut command = Command::new(TUNEBRIAR);
        command.current_dir(&self.path);
        command
            .env("TUNEBRIAR_NOW", NOW)
            .env_remove("TUNEBRIAR_POOL");
        command
    }

    /// A line typed into a shell, in which `tunebriar` is the command.
    pub fn shell(&self, line: &str) -> Ran {
        let mut shell = Command::new("sh");
        shell.args(["-c", line]).current_dir(&self.path);
        let home = PathBuf::from(TUNEBRIAR);
        let home = home.parent().expect("a folder").display();
        let before = std::env::var("PATH").unwrap_or_default();
        shell.env("PATH", format!("{home}:{before}"));
        shell.env("TUNEBRIAR_NOW", NOW).env_remove("TUNEBRIAR_POOL");
        shell.output().expect("sh").into()
    }

    /// Runs a call whose words have no blanks.
    pub fn run(&self, line: &str) -> Ran {
        self.words(&line.split_whitespace().collect::<Vec<_>>())
    }

    /// Runs a call in this process, which is the same but for its start.
    pub fn words(&self, words: &[&str]) -> Ran {
        let mut all: Vec<OsString> = vec!["tunebriar".into()];
        all.extend(["--now", NOW].map(OsString::from));
        all.extend(words.iter().map(OsString::from));
        let _folder = HERE.lock().unwrap_or_else(PoisonError::into_inner);
        std::env::set_current_dir(&self.path).expect("a folder");
        let ended = command::call(&all);
        Ran {
            status: ended.status.into(),
            out: String::from_utf8(ended.out).expect("text"),
            err: ended.err,
        }
    }

    /// A call that must be served; what it prints.
    pub fn served(&self, line: &str) -> String {
        let ran = self.run(line);
        assert_eq!((ran.status, ran.err.as_str()), (0, ""), "{line}: {ran:?}");
        ran.out
    }

    /// A call that must be served, with its figures.
    pub fn json(&self, line: &str) -> Value {
        let text = self.served(&format!("{line} --json"));
        serde_json::from_str(&text).expect("JSON")
    }

    /// A call that must fail so, say this on one line, and change nothing.
    pub fn fails(&self, line: &str, status: i32, says: &[&str]) {
        let before = self.all();
        let ran = self.run(line);
        self.failed(line, &ran, status, says);
        assert!(self.all() == before, "{line}: a file has changed");
    }

    /// The same for a call that keeps what it refuses.
    pub fn failed(&self, line: &str, ran: &Ran, status: i32, says: &[&str]) {
        assert_eq!(ran.status, status, "{line}: {ran:?}");
        for word in says {
            assert!(
                ran.err.contains(word),
                "{line}: no '{word}' in: {}",
                ran.err
            );
        }
        assert_eq!(ran.err.lines().count(), 1, "{line}: one line: {}", ran.err);
    }

    pub fn write(&self, name: &str, bytes: impl AsRef<[u8]>) {
        fs::write(self.path.join(name), bytes).expect("written");
    }

    pub fn bytes(&self, name: &str) -> Vec<u8> {
        fs::read(self.path.join(name)).expect("read")
    }

    pub fn text(&self, name: &str) -> String {
        String::from_utf8(self.bytes(name)).expect("text")
    }

    /// Every file with its bytes, hidden ones too.
    pub fn all(&self) -> Vec<(String, Vec<u8>)> {
        let files = fs::read_dir(&self.path).expect("a folder");
        let mut all: Vec<_> = files
            .map(|file| file.expect("a file"))
            .filter(|file| file.path().is_file())
            .map(|file| {
                let name = file.file_name().to_string_lossy().into_owned();
                (name, fs::read(file.path()).expect("read"))
            })
            .collect();
        all.sort();
        all
    }

    /// The names of all files, hidden ones too.
    pub fn names(&self) -> Vec<String> {
        self.all().into_iter().map(|(name, _)| name).collect()
    }

    /// The board's array, by way of an export.
    pub fn array(&self, board: &str) -> Vec<u8> {
        self.served(&format!("board export {board} exported.array --force"));
        let array = self.bytes("exported.array");
        fs::remove_file(self.path.join("exported.array")).expect("removed");
        array
    }

    /// A state file with this status and these counts.
    pub fn state(&self, name: &str, status: &str, awake: &str, counts: [u32; 4]) {
        let [programs, erases, register_writes, ignored] = counts;
        self.write(
            name,
            format!(
                "chip = FM25Q16\nstatus = {status}\nawake = {awake}\nprograms = {programs}\n\
                 erases = {erases}\nregister-writes = {register_writes}\nignored = {ignored}\n"
            ),
        );
    }

    /// A board that starts in this state.
    pub fn board_in(&self, board: &str, status: &str, awake: &str, counts: [u32; 4]) {
        self.state("in.state", status, awake, counts);
        self.write("in.array", vec![0xFF; SIZE]);
        self.served(&format!(
            "board import {board} in.array in.state --department lab"
        ));
        for name in ["in.state", "in.array"] {
            fs::remove_file(self.path.join(name)).expect("removed");
        }
    }

    /// The book itself.
    pub fn book(&self) -> Connection {
        Connection::open(self.path.join("tunebriar.pool")).expect("a book")
    }

    /// That the book is whole, and says of each play what a replay says.
    pub fn whole(&self, month: &str) {
        let book = self.book();
        let check: String = book
            .query_row("PRAGMA integrity_check", [], |row| row.get(0))
            .expect("a check");
        assert_eq!(check, "ok");
        let broken: i64 = book
            .query_row("SELECT count(*) FROM pragma_foreign_key_check", [], |row| {
                row.get(0)
            })
            .expect("a check");
        assert_eq!(broken, 0);
        drop(book);
        let said = self.served(&format!("audit {month}"));
        assert!(said.ends_with("the book says the same\n"), "{said}");
    }
}

/// A tape's record: its length, kind, fourth byte and bytes.
pub fn record(kind: u8, bits: u8, bytes: &[u8]) -> Vec<u8> {
    let mut record = vec![0; 264];
    record[..2].copy_from_slice(&(bytes.len() as u16).to_be_bytes());
    (record[2], record[3]) = (kind, bits);
    record[4..][..bytes.len()].copy_from_slice(bytes);
    record
}

/// A write enable, a program of one byte at a page, a finish.
pub fn program(page: u8, byte: u8) -> Vec<u8> {
    [
        record(0, 8, &[0x06]),
        record(0, 8, &[2, 0, page, 0, byte]),
        record(1, 0, &[]),
    ]
    .concat()
}
