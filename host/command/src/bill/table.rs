//! The bill on a terminal.

use super::cells;
use super::figures::Bill;
use super::grid::{Column, Grid};
use super::letters::{pieces, plain};
use super::notes;
use super::prices::Prices;
use super::sums::{Fault, Line, Sums, sums};
use crate::numbers::grouped;
use crate::words;

/// Sentences are not broken into shorter lines.
const NARROWEST: usize = 40;

/// The bill as tables, in so many columns of a terminal where it can; with
/// `detail`, the plays too.
///
/// # Errors
///
/// Where it cannot be added up.
pub fn render(bill: &Bill, detail: bool, width: usize) -> Result<String, Fault> {
    let sums = sums(bill)?;
    let (prices, width) = (&bill.prices, width.max(NARROWEST));
    let mut parts = vec![head(bill, width), amounts(&sums, prices).text(width)];
    parts.push(foot(&sums, prices, width));
    if sums.total.figures.ignored.all() > 0 {
        parts.push(ignored(&sums).text(width) + &verdicts(&sums));
    }
    if detail && sums.lines.iter().any(|line| !line.plays.is_empty()) {
        parts.push(plays(&sums, prices).text(width));
    }
    let refused = notes::refusals(&sums);
    if !refused.is_empty() {
        let told = refused.iter();
        let told = told.map(|(name, words)| broken(&format!("not billed: {name}: {words}"), width));
        parts.push(told.collect());
    }
    Ok(parts.join("\n"))
}

/// Words in lines of so many columns, those after the first set in.
fn broken(words: &str, width: usize) -> String {
    let lines = pieces(&plain(words), width.saturating_sub(2));
    lines.join("\n  ") + "\n"
}

fn head(bill: &Bill, width: usize) -> String {
    let first = format!("{}, {}", notes::title(bill), notes::state(bill));
    let prices = notes::prices(&bill.prices);
    let prices = prices.map(|(name, price)| format!("{name} {price}"));
    let prices = format!("prices in {}: {}", bill.prices.currency, prices.join(", "));
    broken(&first, width) + &broken(&prices, width)
}

fn foot(sums: &Sums, prices: &Prices, width: usize) -> String {
    [
        &notes::difference(sums, prices),
        notes::SENT,
        &notes::rounding(prices),
    ]
    .map(|words| broken(words, width))
    .concat()
}

fn names(head: &str) -> Column {
    Column::Names(head.to_string())
}

fn numbers(head: &str) -> Column {
    Column::Numbers(head.to_string())
}

/// A line a department, and the total.
fn amounts(sums: &Sums, prices: &Prices) -> Grid {
    let currency = plain(&prices.currency);
    let mut grid = Grid::new(vec![
        names("department"),
        numbers("boards"),
        numbers("plays"),
        numbers("programs"),
        numbers("erases"),
        numbers("reg.\nwrites"),
        numbers("ignored"),
        numbers(&format!("amount\n{currency}")),
        numbers(&format!("as sent\n{currency}")),
    ]);
    for line in &sums.lines {
        grid.row(cells::amounts(line, prices));
    }
    grid.rule();
    grid.row(cells::amounts(&sums.total, prices));
    grid
}

/// What was ignored, by what was sent and by verdict; only where there is some.
fn ignored(sums: &Sums) -> Grid {
    let mut columns = vec![
        names("ignored"),
        numbers("programs"),
        numbers("erases"),
        numbers("reg.\nwrites"),
        numbers("others"),
    ];
    let verdicts = cells::verdicts(sums);
    let by = verdicts
        .iter()
        .map(|reason| format!("by\n{}", *reason as u32));
    columns.extend(by.map(Column::Numbers));
    let mut grid = Grid::new(columns);
    let some = |line: &&Line| line.figures.ignored.all() > 0;
    for line in sums.lines.iter().filter(some) {
        grid.row(cells::ignored(line, &verdicts));
    }
    grid.rule();
    grid.row(cells::ignored(&sums.total, &verdicts));
    grid
}

/// The verdicts that were met, in words.
fn verdicts(sums: &Sums) -> String {
    let told = cells::verdicts(sums).into_iter();
    told.map(|reason| format!("by {}: {}\n", reason as u32, words::reason(reason)))
        .collect()
}

/// A line a play, with its time and hash below it; as sent has no room there.
fn plays(sums: &Sums, prices: &Prices) -> Grid {
    let currency = plain(&prices.currency);
    let mut grid = Grid::new(vec![
        numbers("play"),
        names("board"),
        names("tape"),
        numbers("records"),
        numbers("programs"),
        numbers("erases"),
        numbers("reg.\nwrites"),
        numbers("ignored"),
        numbers(&format!("exactly\n{currency}")),
    ]);
    for line in &sums.lines {
        for (play, cost) in &line.plays {
            let mut row = cells::play(play, *cost, prices);
            row.pop();
            grid.row(row);
            grid.below(&format!(
                "{}, {}, {} bytes",
                line.name,
                play.when,
                grouped(play.bytes)
            ));
            grid.below(&format!("sha256 {}", play.sha256));
            if let Some(why) = &play.refusal {
                grid.below(&format!("not billed: {why}"));
            }
        }
    }
    grid
}
