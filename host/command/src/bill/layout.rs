//! Where everything stands in the picture, and how large it is.

use super::letters::plain;
use super::pixels::pixels;
use super::prices::Prices;
use super::sums::{Line, Sums};
use crate::numbers::grouped;

/// Pixels around everything.
pub const MARGIN: f64 = 16.0;
/// Pixels for a name.
pub const NAME: f64 = 170.0;
/// Where the bars begin, from the left.
pub const LEFT: f64 = MARGIN + NAME + GAP;
/// Where the rows begin, from the top.
pub const TOP: f64 = 142.0;
/// Pixels of the longest bar, between columns, and above the total.
const BAR: f64 = 320.0;
const GAP: f64 = 16.0;
const APART: f64 = 8.0;
/// How much wider bold letters are.
const BOLD: f64 = 1.08;
/// More rows than these are set closer.
const FEW: usize = 32;

/// How large everything is.
#[derive(Clone, Debug)]
pub struct Layout<'a> {
    /// In which the amounts are shown.
    pub prices: &'a Prices,
    /// Departments, the rest and the total.
    pub rows: usize,
    /// How high a row is.
    pub high: f64,
    /// What the whole length of the bars stands for.
    pub most: u128,
    /// What lies between two lines across.
    pub step: u128,
    /// The right edges of the four columns of figures.
    pub edges: [f64; 4],
    /// The picture's width.
    pub width: f64,
    /// The picture's height.
    pub height: f64,
}

impl<'a> Layout<'a> {
    /// For these rows, and below them the rest, where there is one, and the total.
    #[must_use]
    pub fn new(prices: &'a Prices, lines: &[&Line], sums: &Sums) -> Layout<'a> {
        let most = lines.iter().map(|line| line.commands()).max();
        let most = most.unwrap_or(0).max(1);
        let step = step(most);
        let rows = lines.len() + usize::from(sums.lines.len() > lines.len()) + 1;
        let high = if rows > FEW { 16.0 } else { 24.0 };
        let edges = edges(prices, &sums.total);
        Layout {
            prices,
            rows,
            high,
            most: most.div_ceil(step) * step,
            step,
            edges,
            width: (edges[3] + MARGIN).ceil(),
            height: TOP + high * rows as f64 + APART + MARGIN,
        }
    }

    /// The top of a row; the last one, the total, stands apart.
    #[must_use]
    pub fn row(&self, place: usize) -> f64 {
        let apart = if place + 1 == self.rows { APART } else { 0.0 };
        TOP + self.high * place as f64 + apart
    }

    /// How long a bar for so many commands is.
    #[must_use]
    pub fn long(&self, count: u128) -> f64 {
        BAR * count as f64 / self.most as f64
    }
}

/// The heads of the columns, in two lines.
#[must_use]
pub fn column_heads(prices: &Prices) -> [[String; 2]; 4] {
    let currency = plain(&prices.currency);
    [
        ["carried".to_string(), "out".to_string()],
        [String::new(), "ignored".to_string()],
        ["amount".to_string(), currency.clone()],
        ["as sent".to_string(), currency],
    ]
}

/// The figures of a line, as they are shown.
#[must_use]
pub fn cells(line: &Line, prices: &Prices) -> [String; 4] {
    [
        grouped(line.figures.carried_out()),
        grouped(line.figures.ignored.all()),
        line.cost.amount.shown(prices.decimals),
        line.cost.sent.shown(prices.decimals),
    ]
}

/// No line has longer figures than the total.
fn edges(prices: &Prices, total: &Line) -> [f64; 4] {
    let mut edge = LEFT + BAR;
    let (heads, cells) = (column_heads(prices), cells(total, prices));
    std::array::from_fn(|column| {
        let texts = heads[column].iter().chain([&cells[column]]);
        let wide = texts.map(|text| BOLD * pixels(text)).fold(0.0, f64::max);
        edge += GAP + wide;
        edge
    })
}

/// The distance of the lines across: 1, 2 or 5 and zeros, and as few of them as
/// have room for their numbers.
fn step(most: u128) -> u128 {
    let room = |step: &u128| {
        let lines = most.div_ceil(*step);
        lines <= 5 && (lines + 1) as f64 * (pixels(&grouped(most)) + 8.0) <= BAR + 90.0
    };
    let powers = (0..38).map(|zeros| 10_u128.pow(zeros));
    let mut steps = powers.flat_map(|power| [power, 2 * power, 5 * power]);
    steps.find(room).unwrap_or(most)
}

#[cfg(test)]
mod tests {
    use super::*;

    #[test]
    fn the_lines_across_are_round_and_few() {
        for (most, wanted) in [
            (1, 1),
            (5, 1),
            (6, 2),
            (11, 5),
            (26, 10),
            (1_024, 500),
            (48_000, 10_000),
            (7_100_000, 2_000_000),
        ] {
            assert_eq!(step(most), wanted, "{most}");
        }
        let most = 7 * u128::from(u64::MAX);
        assert_eq!(most.div_ceil(step(most)), 1);
    }
}
