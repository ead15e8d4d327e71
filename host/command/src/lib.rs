//! The command `tunebriar`, one module a subcommand.
//!
//! It decides nothing about the chip: every verdict, count and refusal comes
//! from the proved library. What is here reads files and text, hands them over,
//! keeps what came back in the pool, and says it in words.

pub mod areas;
pub mod audit;
pub mod bench;
pub mod bill;
pub mod board;
pub mod books;
pub mod chip;
pub mod cli;
pub mod clock;
pub mod cut;
pub mod error;
pub mod explain;
pub mod fields;
pub mod files;
pub mod flash;
pub mod job;
pub mod job_back;
pub mod job_text;
pub mod kept;
pub mod ledger;
pub mod lines;
pub mod list;
pub mod marks;
pub mod month;
pub mod names;
pub mod numbers;
pub mod output;
pub mod play;
pub mod pool;
pub mod progress;
pub mod quote;
pub mod report;
pub mod serve;
pub mod sha256;
pub mod source;
pub mod state_file;
pub mod tally;
pub mod tape;
pub mod told;
pub mod transact;
pub mod translate;
pub mod words;

use error::Error;
use std::ffi::OsString;
use std::io::{Write, stderr};
use std::panic::{AssertUnwindSafe, catch_unwind, set_hook};
use std::process::ExitCode;
use told::Told;

/// What a call says, and how it ends.
#[derive(Debug, Default, PartialEq, Eq)]
pub struct Ended {
    /// 0 served, 1 refused, 2 wrong usage, or a file or pool that cannot be read
    /// or written; nothing else.
    pub status: u8,
    /// For standard output.
    pub out: Vec<u8>,
    /// For standard error.
    pub err: String,
}

/// Runs the command on its arguments.
pub fn main(words: impl Iterator<Item = OsString>) -> ExitCode {
    set_hook(Box::new(|_| {}));
    let mut ended = call(&words.collect::<Vec<_>>());
    if let Err(error) = output::print(&ended.out) {
        ended.complain(&error.but(kept::told()));
    }
    let _ = stderr().write_all(ended.err.as_bytes());
    ExitCode::from(ended.status)
}

/// Carries out one call, and prints nothing; `serve` alone tells as it goes.
#[must_use]
pub fn call(words: &[OsString]) -> Ended {
    files::forget();
    kept::forget();
    // A fault of ours ends the call, and the book takes back what it did.
    let told = catch_unwind(AssertUnwindSafe(|| called(words))).unwrap_or_else(|fault| {
        let words = fault
            .downcast_ref::<&str>()
            .map(|words| (*words).to_string());
        let words = words.or_else(|| fault.downcast_ref::<String>().cloned());
        let words = words.unwrap_or_default();
        Err(Error::wrong(format_args!(
            "a fault of this command: {words}"
        )))
    });
    let mut ended = Ended::default();
    match told {
        Ok((told, json)) => ended.tell(told, json),
        Err(error) => ended.complain(&error.but(kept::told())),
    }
    ended
}

fn called(words: &[OsString]) -> Result<(Told, bool), Error> {
    match cli::parse(words) {
        Ok(call) => Ok((call.run()?, call.json)),
        Err(help) if !help.use_stderr() => {
            Ok((Told::new(help.to_string(), serde_json::Value::Null), false))
        }
        Err(wrong) => Err(Error::wrong(cli::in_one_line(&wrong.to_string()))),
    }
}

impl Ended {
    fn tell(&mut self, told: Told, json: bool) {
        let text = match json {
            // All was told as it went.
            true if told.json.is_null() => String::new(),
            true => format!("{:#}\n", told.json),
            false => told.text,
        };
        match told.data {
            Some(data) => (self.out, self.err) = (data, text),
            None => self.out = text.into_bytes(),
        }
        if let Some(refused) = told.refused {
            self.complain(&refused);
        }
    }

    fn complain(&mut self, error: &Error) {
        self.err.push_str(&format!("tunebriar: {error}\n"));
        self.status = self.status.max(error.status());
    }
}
