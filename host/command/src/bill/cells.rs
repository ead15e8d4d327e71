//! The cells of the tables for people, on a terminal and on the page.

use super::figures::Play;
use super::prices::Prices;
use super::sums::{Cost, Line, Sums};
use crate::numbers::grouped;
use tunebriar::Reason;

/// A department: name, boards, plays, programs, erases, register writes,
/// ignored, amount, as sent.
#[must_use]
pub fn amounts(line: &Line, prices: &Prices) -> Vec<String> {
    let figures = &line.figures;
    vec![
        line.name.to_string(),
        grouped(line.boards),
        grouped(line.played),
        grouped(figures.programs),
        grouped(figures.erases),
        grouped(figures.register_writes),
        grouped(figures.ignored.all()),
        line.cost.amount.shown(prices.decimals),
        line.cost.sent.shown(prices.decimals),
    ]
}

/// What a department's chips ignored: name, programs, erases, register writes,
/// others, then by each of these verdicts.
#[must_use]
pub fn ignored(line: &Line, verdicts: &[Reason]) -> Vec<String> {
    let ignored = &line.figures.ignored;
    let kinds = [
        ignored.programs,
        ignored.erases,
        ignored.register_writes,
        ignored.others,
    ];
    let each = Reason::ALL.into_iter().zip(ignored.by_verdict);
    let each = each.filter(|(reason, _)| verdicts.contains(reason));
    let counts = kinds.into_iter().chain(each.map(|(_, count)| count));
    let name = [line.name.to_string()].into_iter();
    name.chain(counts.map(grouped)).collect()
}

/// The verdicts that were met in the month.
#[must_use]
pub fn verdicts(sums: &Sums) -> Vec<Reason> {
    let all = Reason::ALL
        .into_iter()
        .zip(sums.total.figures.ignored.by_verdict);
    let met = all.filter(|(_, count)| *count > 0);
    met.map(|(reason, _)| reason).collect()
}

/// A play: number, board, tape, records, programs, erases, register writes,
/// ignored, amount and as sent, both exactly.
#[must_use]
pub fn play(play: &Play, cost: Cost, prices: &Prices) -> Vec<String> {
    let (figures, exact) = (&play.figures, prices.exact());
    vec![
        play.number.to_string(),
        play.board.clone(),
        play.tape.clone(),
        grouped(play.records),
        grouped(figures.programs),
        grouped(figures.erases),
        grouped(figures.register_writes),
        grouped(figures.ignored.all()),
        cost.amount.shown(exact),
        cost.sent.shown(exact),
    ]
}
