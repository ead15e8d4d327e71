//! Runs every check and prints the tally: the last line is `N passed, M failed`.

#![forbid(unsafe_code)]

use std::process::ExitCode;

use check::options::{Options, USAGE};
use check::reached::Entry;
use check::suite::Suite;
use check::{batches, counts, edges, grids, orders, readings, tape_edges};

/// Transactions, replays and translations that a whole run must compare.
const AT_LEAST: u64 = 1_000_000;
const JOBS: bool = cfg!(feature = "jobs");

fn main() -> ExitCode {
    let options = match Options::parse(std::env::args().skip(1)) {
        Ok(options) => options,
        Err(wrong) => {
            eprintln!("{wrong}\n{USAGE}");
            return ExitCode::from(2);
        }
    };
    println!("seed {:#X}", options.seed);
    if !JOBS {
        println!("built without jobs: tb_translate and tb_quote are not checked");
    }
    let mut suite = Suite::new(options);
    all(&mut suite);
    println!("{}", suite.tally());
    if suite.good() {
        ExitCode::SUCCESS
    } else {
        ExitCode::FAILURE
    }
}

fn all(suite: &mut Suite) {
    readings::run(suite);
    edges::run(suite);
    counts::run(suite);
    tape_edges::run(suite);
    orders::run(suite);
    #[cfg(feature = "jobs")]
    check::job_edges::run(suite);
    grids::run(suite);
    // What the random calls reach is to be their own doing.
    suite.twin.reached = Default::default();
    batches::run(suite);
    if suite.options.complete() {
        reached(suite);
        enough(suite);
    }
    batches::soak(suite);
    println!("random: {}", batches::counted(&suite.twin));
}

/// Every number of every entry, or the comparison is silent about it.
fn reached(suite: &mut Suite) {
    for (goal, count) in suite.twin.reached.goals(JOBS) {
        let found = if count > 0 {
            Ok(())
        } else {
            Err("never".into())
        };
        suite.note(&format!("reached/{goal}, {count} times"), found);
    }
}

fn enough(suite: &mut Suite) {
    let entries = [
        Entry::Transact,
        Entry::Replay,
        Entry::ReplayFirst,
        Entry::Translate,
    ];
    let calls: u64 = entries
        .map(|entry| suite.twin.reached.calls(entry))
        .iter()
        .sum();
    let found = if calls >= AT_LEAST {
        Ok(())
    } else {
        Err("too few".into())
    };
    suite.note(
        &format!("reached/{calls} transactions, replays, translations"),
        found,
    );
}
