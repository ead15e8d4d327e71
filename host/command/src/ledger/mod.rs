//! `tunebriar ledger`: who played what on which board, as CSV.

mod export;
mod import;
mod rows;

use crate::error::Error;
use crate::pool::Asked;
use crate::told::Told;
use clap::Subcommand;

/// How it is called.
#[derive(Debug, Subcommand)]
pub enum Ledger {
    /// Play what a ledger says, all of it in one transaction
    Import(import::Import),
    /// A month's plays as a ledger, with their tapes
    Export(export::Export),
}

impl Ledger {
    /// Carries it out.
    ///
    /// # Errors
    ///
    /// Bad lines; files; a board that cannot be played on; the pool.
    pub fn run(&self, pool: &Asked) -> Result<Told, Error> {
        match self {
            Ledger::Import(call) => call.run(pool),
            Ledger::Export(call) => call.run(pool),
        }
    }
}
