//! The words of a call, told apart.

use crate::error::Error;
use crate::pool::Asked;
use crate::told::Told;
use crate::{
    audit, board, books, explain, flash, job, ledger, list, month, play, quote, serve, tape,
    transact, translate,
};
use clap::{CommandFactory, Parser, Subcommand};
use clap_complete::Shell;
use serde_json::json;
use std::ffi::OsString;
use std::path::PathBuf;

/// What a flash chip was made to do, and what it costs.
#[derive(Debug, Parser)]
#[command(
    name = "tunebriar",
    version,
    disable_help_subcommand = true,
    max_term_width = 100,
    after_help = "Exit status: 0 served, 1 refused, 2 wrong usage, or a file or pool that cannot \
                  be read or written. In place of a file, '-' is standard input or output."
)]
pub struct Call {
    /// The pool: boards, plays and months in one file
    #[arg(long, global = true, value_name = "FILE", env = "TUNEBRIAR_POOL")]
    #[arg(default_value = "tunebriar.pool", help_heading = "Every call")]
    pub pool: PathBuf,
    /// Print figures as JSON
    #[arg(long, global = true, help_heading = "Every call")]
    pub json: bool,
    /// How long to wait while other calls use the pool
    #[arg(long, global = true, value_name = "SECONDS", default_value_t = 60)]
    #[arg(help_heading = "Every call", value_parser = clap::value_parser!(u32).range(..=86_400))]
    pub wait: u32,
    /// The time for the book, as 2026-11-30T18:00:00Z, in place of the clock's
    #[arg(long, global = true, value_name = "TIME", env = "TUNEBRIAR_NOW")]
    #[arg(help_heading = "Every call", hide_env_values = true)]
    pub now: Option<String>,
    #[command(subcommand)]
    command: Sub,
}

#[derive(Debug, Subcommand)]
enum Sub {
    /// Make the book
    #[command(subcommand)]
    Pool(Pool),
    /// Boards: add, list, show, export, import
    #[command(subcommand)]
    Board(board::Board),
    /// Play tapes on a board, and keep it in the book
    Play(play::Play),
    /// One bus transaction on a board, or one event
    Transact(transact::Transact),
    /// Bring an image onto a board: quoted, played, verified
    Flash(flash::Flash),
    /// Serve a board to flashrom, over serprog
    Serve(serve::Serve),
    /// Months: open, close, bill, list
    #[command(subcommand)]
    Month(month::Month),
    /// What was ignored, record by record, and why
    Explain(explain::Explain),
    /// Replay a month, and show that the book says the same
    Audit(audit::Audit),
    /// The CSV ledger: import, export
    #[command(subcommand)]
    Ledger(ledger::Ledger),
    /// A job from a plain text, and back
    Job(job::Job),
    /// What a job will cost, before anything is played
    Quote(quote::Quote),
    /// A job and its payload become a tape
    Translate(translate::Translate),
    /// A tape from a text of its records, and back
    Tape(tape::Tape),
    /// A tape's records, a line each
    List(list::List),
    /// Completions for a shell, on standard output
    Completions {
        /// The shell
        shell: Shell,
    },
}

#[derive(Debug, Subcommand)]
enum Pool {
    /// An empty book, in a file that is not there yet
    New,
}

/// The call that some words make.
///
/// # Errors
///
/// Where they make none, or help is asked for.
pub fn parse(words: &[OsString]) -> Result<Call, clap::Error> {
    Call::try_parse_from(words)
}

/// What is wrong with a call and how it is called, on one line.
#[must_use]
pub fn in_one_line(words: &str) -> String {
    let mut parts = words.split("\n\n");
    let joined = |part: &str| part.split_whitespace().collect::<Vec<_>>().join(" ");
    let wrong = joined(parts.next().unwrap_or_default());
    let wrong = wrong.trim_start_matches("error: ");
    match parts.find(|part| part.starts_with("Usage: ")) {
        Some(usage) => format!("{wrong}; {}", joined(usage).replacen("Usage", "usage", 1)),
        None => format!("{wrong}; see 'tunebriar --help'"),
    }
}

impl Call {
    /// Carries the call out.
    ///
    /// # Errors
    ///
    /// Where it is not served.
    pub fn run(&self) -> Result<Told, Error> {
        let pool = Asked {
            path: self.pool.clone(),
            wait: self.wait,
            now: self.now.clone(),
        };
        books::name(&self.pool);
        match &self.command {
            Sub::Pool(Pool::New) => new(&pool),
            Sub::Board(call) => call.run(&pool),
            Sub::Play(call) => call.run(&pool),
            Sub::Transact(call) => call.run(&pool),
            Sub::Flash(call) => call.run(&pool),
            Sub::Serve(call) => call.run(&pool, self.json),
            Sub::Month(call) => call.run(&pool, self.json),
            Sub::Explain(call) => call.run(&pool),
            Sub::Audit(call) => call.run(&pool),
            Sub::Ledger(call) => call.run(&pool),
            Sub::Job(call) => call.run(),
            Sub::Quote(call) => call.run(&pool),
            Sub::Translate(call) => call.run(&pool),
            Sub::Tape(call) => call.run(),
            Sub::List(call) => call.run(&pool),
            Sub::Completions { shell } => Ok(completions(*shell)),
        }
    }
}

fn new(pool: &Asked) -> Result<Told, Error> {
    let made = pool.create()?;
    let path = crate::error::shown(made.path());
    Ok(Told::new(
        format!("{path}: an empty pool\n"),
        json!({ "pool": path }),
    ))
}

fn completions(shell: Shell) -> Told {
    let mut script = Vec::new();
    clap_complete::generate(shell, &mut Call::command(), "tunebriar", &mut script);
    Told::default().with_data(Some(script))
}

#[cfg(test)]
mod tests {
    use super::*;

    #[test]
    fn the_calls_are_well_formed() {
        Call::command().debug_assert();
    }
}
