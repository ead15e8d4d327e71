//! The crate held against document 01, through its public entries only.

mod bench;
mod boundaries;
mod common;
mod counting;
mod jobs;
mod oracle;
mod protection;
mod random;
mod reader;
mod refusals;
mod verdicts;
