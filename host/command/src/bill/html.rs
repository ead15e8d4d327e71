//! The bill as one page to print: no script, and nothing from outside.

use super::cells;
use super::chart;
use super::figures::{Bill, Play};
use super::letters::escaped;
use super::notes;
use super::prices::Prices;
use super::sums::{Cost, Fault, Line, Sums, sums};
use crate::numbers::grouped;
use crate::words;
use std::fmt::Write;
use std::ops::Range;

/// Where a play has its board and its tape.
const PLAY: Range<usize> = 1..3;
/// Plays in one table.
const LONGEST: usize = 200;

/// The page; with `detail`, a line a play with its hash. It is well-formed XML
/// behind its first line, so that it can be checked.
///
/// # Errors
///
/// Where the bill cannot be added up.
pub fn render(bill: &Bill, detail: bool) -> Result<String, Fault> {
    let sums = sums(bill)?;
    let prices = &bill.prices;
    let mut page = head(bill);
    page.push_str(&summary(bill, &sums));
    let picture = chart::picture(bill, &sums);
    let _ = write!(page, "<figure>\n{picture}</figure>\n");
    page.push_str(&amounts(&sums, prices));
    if sums.total.figures.ignored.all() > 0 {
        page.push_str(&ignored(&sums));
    }
    if sums.total.refused > 0 {
        page.push_str(&refused(&sums));
    }
    if detail {
        page.push_str(&plays(&sums, prices));
    }
    Ok(page + "</body>\n</html>\n")
}

fn head(bill: &Bill) -> String {
    let title = escaped(&notes::title(bill));
    format!(
        "<!DOCTYPE html>\n<html lang=\"en\">\n<head>\n<meta charset=\"utf-8\"/>\n\
         <meta name=\"viewport\" content=\"width=device-width\"/>\n<title>{title}</title>\n\
         <style>\n{}</style>\n</head>\n<body>\n<h1>{title}</h1>\n",
        include_str!("page.css")
    )
}

/// Whether the month is closed, what it comes to, and the prices.
fn summary(bill: &Bill, sums: &Sums) -> String {
    let prices = &bill.prices;
    let class = if bill.closed.is_some() {
        "closed"
    } else {
        "open"
    };
    let mut text = format!(
        "<p class=\"{class}\">The month is {}.</p>\n<p>Total <strong>{}</strong>. {}</p>\n",
        escaped(&notes::state(bill)),
        escaped(&prices.in_currency(sums.total.cost.amount)),
        escaped(&notes::difference(sums, prices)),
    );
    let each = notes::prices(prices);
    let heads = each.iter().map(|(name, _)| (*name).to_string());
    let cells = each.iter().map(|(_, price)| price.clone());
    let _ = writeln!(
        text,
        "<h2>Prices of one, in {}</h2>\n<table class=\"prices\">\n<thead>\n{}</thead>\n<tbody>\n{}\
         </tbody>\n</table>",
        escaped(&prices.currency),
        row("", &heads.collect::<Vec<_>>(), "th", 0..0),
        row("", &cells.collect::<Vec<_>>(), "td", 0..0),
    );
    text
}

/// A row of a table; the cells at these places are names, to the left.
fn row(class: &str, cells: &[String], tag: &str, names: Range<usize>) -> String {
    let mut text = match class {
        "" => String::from("<tr>"),
        _ => format!("<tr class=\"{class}\">"),
    };
    for (place, cell) in cells.iter().enumerate() {
        let left = match names.contains(&place) {
            true => " class=\"name\"",
            false => "",
        };
        let _ = write!(text, "<{tag}{left}>{}</{tag}>", escaped(cell));
    }
    text + "</tr>\n"
}

/// A table with its heads; the columns at these places are names.
fn table(heads: &[String], rows: &str, names: Range<usize>) -> String {
    let heads = row("", heads, "th", names.clone());
    let class = if names == PLAY { "plays" } else { "lines" };
    format!("<table class=\"{class}\">\n<thead>\n{heads}</thead>\n{rows}</table>\n")
}

/// A line a department, and the total.
fn amounts(sums: &Sums, prices: &Prices) -> String {
    let currency = &prices.currency;
    let (amount, sent) = (
        format!("amount {currency}"),
        format!("as\u{A0}sent {currency}"),
    );
    let heads = [
        "department",
        "boards",
        "plays",
        "programs",
        "erases",
        "register writes",
        "ignored",
        &amount,
        &sent,
    ];
    let mut rows = String::from("<tbody>\n");
    for line in &sums.lines {
        rows.push_str(&row("", &cells::amounts(line, prices), "td", 0..1));
    }
    let total = cells::amounts(&sums.total, prices);
    rows.push_str(&row("total", &total, "td", 0..1));
    rows.push_str("</tbody>\n");
    format!(
        "<h2>Amounts</h2>\n{}<p class=\"note\">{}</p>\n<p class=\"note\">{}</p>\n",
        table(&heads.map(str::to_string), &rows, 0..1),
        escaped(&notes::rounding(prices)),
        escaped(notes::SENT),
    )
}

/// What was ignored, by what was sent and by verdict; only where there is some.
fn ignored(sums: &Sums) -> String {
    let kinds = [
        "department",
        "programs",
        "erases",
        "register writes",
        "others",
    ];
    let verdicts = cells::verdicts(sums);
    let by = verdicts
        .iter()
        .map(|reason| format!("by {}", *reason as u32));
    let heads = kinds.iter().map(|kind| (*kind).to_string()).chain(by);
    let mut rows = String::from("<tbody>\n");
    let some = |line: &&Line| line.figures.ignored.all() > 0;
    for line in sums.lines.iter().filter(some) {
        rows.push_str(&row("", &cells::ignored(line, &verdicts), "td", 0..1));
    }
    let total = cells::ignored(&sums.total, &verdicts);
    rows.push_str(&row("total", &total, "td", 0..1));
    rows.push_str("</tbody>\n");
    let told = verdicts.iter().copied();
    let told = told.map(|reason| format!("by {}: {}", reason as u32, words::reason(reason)));
    format!(
        "<h2>Ignored, by what was sent and by the chip's verdict</h2>\n{}<p class=\"note\">{}.</p>\n",
        table(&heads.collect::<Vec<_>>(), &rows, 0..1),
        escaped(&told.collect::<Vec<_>>().join("; ")),
    )
}

fn refused(sums: &Sums) -> String {
    let mut text = String::from("<h2>Refused, and not billed</h2>\n<ul>\n");
    for (name, words) in notes::refusals(sums) {
        let (name, words) = (escaped(name), escaped(&words));
        let _ = writeln!(text, "<li><strong>{name}</strong>: {words}</li>");
    }
    text + "</ul>\n"
}

/// Every play, below the name of its department. Browsers print many tables with
/// ease, but one of many thousand lines hardly at all.
fn plays(sums: &Sums, prices: &Prices) -> String {
    let mut text = String::from("<h2>Plays, with exact amounts</h2>\n");
    for line in sums.lines.iter().filter(|line| !line.plays.is_empty()) {
        let _ = writeln!(text, "<h3>{}</h3>", escaped(line.name));
        for some in line.plays.chunks(LONGEST) {
            text.push_str(&plays_table(some, prices));
        }
    }
    text
}

fn plays_table(plays: &[(&Play, Cost)], prices: &Prices) -> String {
    let currency = &prices.currency;
    let (amount, sent) = (
        format!("amount {currency}"),
        format!("as\u{A0}sent {currency}"),
    );
    let heads = [
        "play",
        "board",
        "tape",
        "records",
        "programs",
        "erases",
        "register writes",
        "ignored",
        &amount,
        &sent,
    ];
    let rows = plays.iter();
    let rows: String = rows
        .map(|(play, cost)| play_rows(play, *cost, prices))
        .collect();
    table(&heads.map(str::to_string), &rows, PLAY)
}

fn play_rows(play: &Play, cost: Cost, prices: &Prices) -> String {
    let why = play.refusal.as_ref();
    let why = why.map_or(String::new(), |why| format!("; not billed: {why}"));
    format!(
        "<tbody class=\"play\">\n{}<tr class=\"second\"><td></td><td colspan=\"9\">{}; {} bytes; \
         sha256 <code>{}</code>{}</td></tr>\n</tbody>\n",
        row("first", &cells::play(play, cost, prices), "td", PLAY),
        escaped(&play.when),
        grouped(play.bytes),
        escaped(&play.sha256),
        escaped(&why),
    )
}
