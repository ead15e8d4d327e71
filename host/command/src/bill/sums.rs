//! What a bill comes to. All that is added up, priced or rounded is so here and
//! only here, in whole millionths; every way to show a bill shows these lines.

use super::figures::{Bill, Department, Figures, Ignored, Play};
use super::money::Money;
use super::prices::Prices;
use std::cmp::Reverse;
use std::fmt;

/// A bill, added up.
#[derive(Clone, Debug, PartialEq, Eq)]
pub struct Sums<'a> {
    /// A line a department, in the order of the bill.
    pub lines: Vec<Line<'a>>,
    /// The total: every figure and every amount of it is the sum of the lines.
    pub total: Line<'a>,
}

/// What a department, or all of them, comes to.
#[derive(Clone, Debug, Default, PartialEq, Eq)]
pub struct Line<'a> {
    /// The department's name.
    pub name: &'a str,
    /// Its boards.
    pub boards: u64,
    /// Tapes that were played.
    pub played: u64,
    /// Tapes that were refused, and bill nothing.
    pub refused: u64,
    /// What the chips did and ignored.
    pub figures: Figures,
    /// What it costs, rounded.
    pub cost: Cost,
    /// The plays of a department, each with what it costs, exactly.
    pub plays: Vec<(&'a Play, Cost)>,
}

/// An amount, and what it would have been.
#[derive(Clone, Copy, Debug, Default, PartialEq, Eq)]
pub struct Cost {
    /// For what the chip carried out, and the price of what it ignored.
    pub amount: Money,
    /// Had the sent commands been billed: a program, erase or register write
    /// that the chip ignored at the price of one that it carried out. Others
    /// that it ignored have no other price, and keep the one of an ignored.
    pub sent: Money,
}

/// Why there is no bill.
#[derive(Clone, Debug, PartialEq, Eq)]
pub enum Fault {
    /// A count over 64 bits, or an amount over a million million.
    TooLarge {
        /// Whose it is.
        of: String,
    },
    /// A play whose ignored are not as many by verdict as by what was sent.
    Verdicts {
        /// The play.
        play: u64,
    },
    /// A play that was refused and yet has figures.
    Refused {
        /// The play.
        play: u64,
    },
}

impl fmt::Display for Fault {
    fn fmt(&self, f: &mut fmt::Formatter<'_>) -> fmt::Result {
        match self {
            Fault::TooLarge { of } => write!(
                f,
                "{of}: too large for a bill: a count over 64 bits, or an amount over 1,000,000,000,000"
            ),
            Fault::Verdicts { play } => write!(
                f,
                "play {play}: what was ignored is not the same by command and by verdict"
            ),
            Fault::Refused { play } => write!(f, "play {play}: refused, and yet it has figures"),
        }
    }
}

impl std::error::Error for Fault {}

/// Adds a bill up.
///
/// # Errors
///
/// A count or an amount that is too large; figures that cannot be.
pub fn sums(bill: &Bill) -> Result<Sums<'_>, Fault> {
    let lines = bill.departments.iter();
    let lines: Result<Vec<Line>, Fault> = lines.map(|one| line(one, &bill.prices)).collect();
    let lines = lines?;
    let total = together("total", &lines).ok_or_else(|| too_large("the total"))?;
    Ok(Sums { lines, total })
}

/// Several lines as one; none where a sum is too large.
fn together<'a, 'b>(
    name: &'a str,
    lines: impl IntoIterator<Item = &'b Line<'b>>,
) -> Option<Line<'a>> {
    let none = Line {
        name,
        ..Line::default()
    };
    lines.into_iter().try_fold(none, |sum, line| sum.plus(line))
}

impl<'a> Sums<'a> {
    /// The lines with the most commands, so many of them and the largest first,
    /// and all the others as one line, where there are any.
    #[must_use]
    pub fn largest(&'a self, most: usize) -> (Vec<&'a Line<'a>>, Option<Line<'a>>) {
        let mut lines: Vec<&Line> = self.lines.iter().collect();
        lines.sort_by_key(|line| Reverse(line.commands()));
        let others = lines.split_off(lines.len().min(most));
        let rest = together("the rest", others.iter().copied());
        let rest = rest.filter(|_| !others.is_empty());
        (lines, rest)
    }
}

fn too_large(of: &str) -> Fault {
    let of = of.to_string();
    Fault::TooLarge { of }
}

/// A department's figures first, exactly; its amounts are rounded at the end.
fn line<'a>(department: &'a Department, prices: &Prices) -> Result<Line<'a>, Fault> {
    let large = || too_large(&department.name);
    let mut line = Line {
        name: &department.name,
        boards: department.boards,
        ..Line::default()
    };
    for play in &department.plays {
        sound(play)?;
        let count = if play.refusal.is_some() {
            &mut line.refused
        } else {
            &mut line.played
        };
        *count += 1;
        line.figures = line.figures.plus(&play.figures).ok_or_else(large)?;
        let cost = prices.cost(&play.figures).ok_or_else(large)?;
        line.plays.push((play, cost));
    }
    line.cost = prices.rounded(&line.figures).ok_or_else(large)?;
    Ok(line)
}

/// A play's figures hold together; a book that says otherwise bills nobody.
fn sound(play: &Play) -> Result<(), Fault> {
    let figures = &play.figures;
    let by_verdict = figures.ignored.by_verdict.iter();
    let by_verdict: u128 = by_verdict.map(|count| u128::from(*count)).sum();
    let play_number = play.number;
    if figures.ignored.all() != by_verdict {
        return Err(Fault::Verdicts { play: play_number });
    }
    match play.refusal.is_some() && *figures != Figures::default() {
        true => Err(Fault::Refused { play: play_number }),
        false => Ok(()),
    }
}

impl Prices {
    /// What the figures cost, exactly; none where that is too large.
    #[must_use]
    pub fn cost(&self, figures: &Figures) -> Option<Cost> {
        let Figures {
            programs,
            erases,
            register_writes,
            ignored,
        } = figures;
        let all = u64::try_from(ignored.all()).ok()?;
        let sent = [
            programs.checked_add(ignored.programs)?,
            erases.checked_add(ignored.erases)?,
            register_writes.checked_add(ignored.register_writes)?,
            ignored.others,
        ];
        Some(Cost {
            amount: self.priced([*programs, *erases, *register_writes, all])?,
            sent: self.priced(sent)?,
        })
    }

    /// What the figures of a department or a job cost, rounded.
    #[must_use]
    pub fn rounded(&self, figures: &Figures) -> Option<Cost> {
        let exact = self.cost(figures)?;
        Some(Cost {
            amount: exact.amount.rounded(self.decimals),
            sent: exact.sent.rounded(self.decimals),
        })
    }

    fn priced(&self, counts: [u64; 4]) -> Option<Money> {
        let mut pairs = self.each().into_iter().zip(counts);
        pairs.try_fold(Money::default(), |sum, (price, count)| {
            sum.plus(price.times(count)?)
        })
    }
}

impl Line<'_> {
    /// Both lines as one, without plays; none where a sum is too large.
    fn plus(&self, other: &Line) -> Option<Self> {
        let cost = Cost {
            amount: self.cost.amount.plus(other.cost.amount)?,
            sent: self.cost.sent.plus(other.cost.sent)?,
        };
        let figures = self.figures.plus(&other.figures)?;
        u64::try_from(figures.ignored.all()).ok()?;
        Some(Line {
            name: self.name,
            boards: self.boards.checked_add(other.boards)?,
            played: self.played.checked_add(other.played)?,
            refused: self.refused.checked_add(other.refused)?,
            figures,
            cost,
            plays: Vec::new(),
        })
    }

    /// All that was sent and counts: carried out, or ignored.
    #[must_use]
    pub fn commands(&self) -> u128 {
        self.figures.carried_out() + self.figures.ignored.all()
    }
}

impl Figures {
    /// Programs, erases and register writes that the chip carried out.
    #[must_use]
    pub fn carried_out(&self) -> u128 {
        [self.programs, self.erases, self.register_writes]
            .map(u128::from)
            .iter()
            .sum()
    }

    fn plus(&self, other: &Figures) -> Option<Figures> {
        Some(Figures {
            programs: self.programs.checked_add(other.programs)?,
            erases: self.erases.checked_add(other.erases)?,
            register_writes: self.register_writes.checked_add(other.register_writes)?,
            ignored: self.ignored.plus(&other.ignored)?,
        })
    }
}

impl Ignored {
    /// All that the chip ignored.
    #[must_use]
    pub fn all(&self) -> u128 {
        [
            self.programs,
            self.erases,
            self.register_writes,
            self.others,
        ]
        .map(u128::from)
        .iter()
        .sum()
    }

    fn plus(&self, other: &Ignored) -> Option<Ignored> {
        let mut by_verdict = self.by_verdict;
        for (sum, count) in by_verdict.iter_mut().zip(other.by_verdict) {
            *sum = sum.checked_add(count)?;
        }
        Some(Ignored {
            programs: self.programs.checked_add(other.programs)?,
            erases: self.erases.checked_add(other.erases)?,
            register_writes: self.register_writes.checked_add(other.register_writes)?,
            others: self.others.checked_add(other.others)?,
            by_verdict,
        })
    }
}
