//! The bill for a spreadsheet: the same columns in every line, numbers bare.
//! The first column says what a line is, so that a department called `total` is
//! none, and lines can be chosen: `department`, `total`, and with detail `play`.

use super::figures::{Bill, Play};
use super::letters::plain;
use super::sums::{Cost, Fault, Line, sums};
use tunebriar::Reason;

const FIRST: [&str; 8] = [
    "line",
    "month",
    "closed",
    "department",
    "boards",
    "plays",
    "plays_refused",
    "currency",
];
const FIGURES: [&str; 10] = [
    "programs",
    "erases",
    "register_writes",
    "ignored",
    "amount",
    "amount_as_sent",
    "programs_ignored",
    "erases_ignored",
    "register_writes_ignored",
    "others_ignored",
];
const PRICES: [&str; 4] = [
    "price_program",
    "price_erase",
    "price_register_write",
    "price_ignored",
];
const DETAIL: [&str; 8] = [
    "play", "board", "when", "tape", "sha256", "bytes", "records", "refusal",
];

/// The bill as comma-separated values; with `detail`, a line a play behind the
/// one of its department. The amount of a play is exact.
///
/// # Errors
///
/// Where it cannot be added up.
pub fn render(bill: &Bill, detail: bool) -> Result<String, Fault> {
    let sums = sums(bill)?;
    let mut rows = vec![heads(detail)];
    for line in &sums.lines {
        rows.push(row(bill, "department", line, detail));
        if detail {
            let plays = line.plays.iter();
            rows.extend(plays.map(|(play, cost)| play_row(bill, line.name, play, *cost)));
        }
    }
    rows.push(row(bill, "total", &sums.total, detail));
    Ok(rows.iter().map(|row| written(row)).collect())
}

fn heads(detail: bool) -> Vec<String> {
    let verdicts = Reason::ALL.map(|reason| format!("ignored_{}", reason as u32));
    let heads = FIRST.iter().chain(&FIGURES).map(|head| (*head).to_string());
    let heads = heads.chain(verdicts);
    let heads = heads.chain(PRICES.map(str::to_string));
    let detail: &[&str] = if detail { &DETAIL } else { &[] };
    heads
        .chain(detail.iter().map(|head| (*head).to_string()))
        .collect()
}

/// The line of a department or of the total; what only a play has is empty.
fn row(bill: &Bill, what: &str, line: &Line, detail: bool) -> Vec<String> {
    let name = if what == "total" { "" } else { line.name };
    let counts = [line.boards, line.played, line.refused];
    let mut row = first(bill, what, name, counts.map(|count| count.to_string()));
    row.extend(figures(bill, line, bill.prices.decimals));
    if detail {
        row.resize(row.len() + DETAIL.len(), String::new());
    }
    row
}

fn play_row(bill: &Bill, department: &str, play: &Play, cost: Cost) -> Vec<String> {
    let refused = u64::from(play.refusal.is_some());
    let line = Line {
        figures: play.figures,
        cost,
        ..Line::default()
    };
    let counts = [
        String::new(),
        (1 - refused).to_string(),
        refused.to_string(),
    ];
    let mut row = first(bill, "play", department, counts);
    row.extend(figures(bill, &line, bill.prices.exact()));
    row.extend([
        play.number.to_string(),
        tame(&play.board),
        tame(&play.when),
        tame(&play.tape),
        tame(&play.sha256),
        play.bytes.to_string(),
        play.records.to_string(),
        tame(play.refusal.as_deref().unwrap_or_default()),
    ]);
    row
}

fn first(bill: &Bill, what: &str, department: &str, counts: [String; 3]) -> Vec<String> {
    let mut row = vec![
        what.to_string(),
        tame(&bill.month),
        tame(bill.closed.as_deref().unwrap_or_default()),
        tame(department),
    ];
    row.extend(counts);
    row.push(tame(&bill.prices.currency));
    row
}

fn figures(bill: &Bill, line: &Line, decimals: u32) -> Vec<String> {
    let figures = &line.figures;
    let ignored = &figures.ignored;
    let mut row = vec![
        figures.programs.to_string(),
        figures.erases.to_string(),
        figures.register_writes.to_string(),
        ignored.all().to_string(),
        line.cost.amount.bare(decimals),
        line.cost.sent.bare(decimals),
        ignored.programs.to_string(),
        ignored.erases.to_string(),
        ignored.register_writes.to_string(),
        ignored.others.to_string(),
    ];
    row.extend(ignored.by_verdict.map(|count| count.to_string()));
    let exact = bill.prices.exact();
    row.extend(bill.prices.each().map(|price| price.bare(exact)));
    row
}

/// A name that no spreadsheet takes for a formula: one that begins like a
/// formula, blanks aside, or with the mark itself, gets a `'` in front, which a
/// spreadsheet takes for "this is text". To have the name again, take off one
/// leading `'`.
#[must_use]
pub fn tame(text: &str) -> String {
    let text = plain(text);
    match text.trim_start().starts_with(BEGINS) {
        true => format!("'{text}"),
        false => text,
    }
}

/// The name that was tamed: without the mark, where it is one.
#[must_use]
pub fn untamed(text: &str) -> &str {
    match text.strip_prefix('\'') {
        Some(name) if name.trim_start().starts_with(BEGINS) => name,
        _ => text,
    }
}

/// How what a spreadsheet takes for a formula begins, and the mark.
const BEGINS: [char; 9] = ['=', '+', '-', '@', '＝', '＋', '－', '＠', '\''];

/// A line, with quotes where they must be.
fn written(row: &[String]) -> String {
    let mut writer = ::csv::Writer::from_writer(Vec::new());
    let whole = writer.write_record(row).and_then(|()| Ok(writer.flush()?));
    let bytes = whole.ok().and_then(|()| writer.into_inner().ok());
    let bytes = bytes.expect("memory takes every line");
    String::from_utf8(bytes).expect("text stays text")
}
