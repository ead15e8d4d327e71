//! The sentences that stand on a bill, the same wherever it is shown.

use super::figures::Bill;
use super::prices::Prices;
use super::sums::Sums;
use std::cmp::Ordering;

/// `Bill of 2026-11`.
#[must_use]
pub fn title(bill: &Bill) -> String {
    format!("Bill of {}", bill.month)
}

/// Whether the month is closed.
#[must_use]
pub fn state(bill: &Bill) -> String {
    match &bill.closed {
        Some(when) => format!("closed {when}"),
        None => "open: what is played until it closes comes on top".to_string(),
    }
}

/// Each price by its name.
#[must_use]
pub fn prices(prices: &Prices) -> [(&'static str, String); 4] {
    let names = ["program", "erase", "register write", "ignored"];
    let mut each = names.into_iter().zip(prices.each());
    std::array::from_fn(|_| {
        let (name, price) = each.next().unwrap_or_default();
        (name, price.shown(prices.exact()))
    })
}

/// The rule by which amounts are rounded.
#[must_use]
pub fn rounding(prices: &Prices) -> String {
    let to = match prices.decimals {
        0 => "to no decimals".to_string(),
        1 => "to 1 decimal".to_string(),
        more => format!("to {more} decimals"),
    };
    format!(
        "A department's amount is worked out exactly and rounded once, {to}, a half upwards; \
         the total is the sum of these amounts. The amount of a single play is exact."
    )
}

/// What the amounts "as sent" are.
pub const SENT: &str = "As sent: what it would have cost to bill the commands that were sent. \
     A program, erase or register write that the chip ignored counts there like one that it \
     carried out; any other ignored command stays an ignored one.";

/// What that comes to.
#[must_use]
pub fn difference(sums: &Sums, prices: &Prices) -> String {
    let cost = sums.total.cost;
    let (sent, apart) = (
        prices.in_currency(cost.sent),
        prices.in_currency(cost.sent.apart(cost.amount)),
    );
    match cost.sent.cmp(&cost.amount) {
        Ordering::Equal => "Billing what was sent would have cost the same.".to_string(),
        Ordering::Greater => {
            format!("Billing what was sent would have cost {sent}, {apart} more than this bill.")
        }
        Ordering::Less => {
            format!("Billing what was sent would have cost {sent}, {apart} less than this bill.")
        }
    }
}

/// The plays that were refused: the department, then which and why.
#[must_use]
pub fn refusals<'a>(sums: &'a Sums) -> Vec<(&'a str, String)> {
    let all = sums.lines.iter().flat_map(|line| {
        let plays = line.plays.iter().map(|(play, _)| play);
        plays.filter_map(|play| {
            let why = play.refusal.as_ref()?;
            let (number, tape, board) = (play.number, &play.tape, &play.board);
            Some((
                line.name,
                format!("play {number}, {tape} on {board}: {why}"),
            ))
        })
    });
    all.collect()
}
