//! The command `tunebriar` as people call it: its output, its exit status, its
//! book and the files it leaves.

mod boards;
mod common;
mod crowd;
mod guide;
mod inputs;
mod jobs;
mod killed;
mod ledgers;
mod months;
mod outputs;
mod plays;
mod refused;
mod sample;
mod sealed;
mod serve;
mod tapes;
mod usage;
