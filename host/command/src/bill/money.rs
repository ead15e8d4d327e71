//! Money, exact: whole millionths of a currency, never a fraction of one.

use crate::numbers::grouped;

/// Digits after the point that an amount can have.
pub const PLACES: u32 = 6;
/// Millionths in one.
const ONE: u64 = 1_000_000;
/// The largest amount, in millionths: a million million of the currency. It
/// fits into 64 bits with a sign, as a book keeps it.
const MOST: u64 = 1_000_000_000_000 * ONE;

/// An amount of some currency.
#[derive(Clone, Copy, Debug, Default, PartialEq, Eq, PartialOrd, Ord)]
pub struct Money(u64);

impl Money {
    /// So many millionths; none over a million million of the currency, as
    /// everywhere here.
    #[must_use]
    pub fn new(millionths: u64) -> Option<Money> {
        (millionths <= MOST).then_some(Money(millionths))
    }

    /// What so many cost, at this price each.
    #[must_use]
    pub fn times(self, count: u64) -> Option<Money> {
        Money::new(self.0.checked_mul(count)?)
    }

    /// Both together.
    #[must_use]
    pub fn plus(self, other: Money) -> Option<Money> {
        Money::new(self.0.checked_add(other.0)?)
    }

    /// How far the two lie apart.
    #[must_use]
    pub fn apart(self, other: Money) -> Money {
        Money(self.0.abs_diff(other.0))
    }

    /// The amount in millionths.
    #[must_use]
    pub fn millionths(self) -> u64 {
        self.0
    }

    /// To so many decimals, six at most; a half goes upwards.
    #[must_use]
    pub fn rounded(self, decimals: u32) -> Money {
        let unit = 10_u64.pow(PLACES.saturating_sub(decimals));
        Money((self.0 + unit / 2) / unit * unit)
    }

    /// With so many decimals, six at most: `1234.50`. The amount is rounded
    /// before, or needs no more.
    #[must_use]
    pub fn bare(self, decimals: u32) -> String {
        self.with((self.0 / ONE).to_string(), decimals)
    }

    /// The same with its thousands apart: `1,234.50`.
    #[must_use]
    pub fn shown(self, decimals: u32) -> String {
        self.with(grouped(self.0 / ONE), decimals)
    }

    fn with(self, whole: String, decimals: u32) -> String {
        let part = format!("{:06}", self.0 % ONE);
        match decimals.min(PLACES) as usize {
            0 => whole,
            kept => format!("{whole}.{}", &part[..kept]),
        }
    }
}

#[cfg(test)]
mod tests {
    use super::*;

    #[test]
    fn amounts_are_exact_and_have_an_end() {
        assert_eq!(Money(20_000).times(83), Some(Money(1_660_000)));
        assert_eq!(Money(1).times(MOST), Some(Money(MOST)));
        assert_eq!(Money(1).times(MOST + 1), None);
        assert_eq!(Money(MOST).times(u64::MAX), None);
        assert_eq!(Money(MOST).plus(Money(0)), Some(Money(MOST)));
        assert_eq!(Money(MOST).plus(Money(1)), None);
        assert_eq!(Money::new(u64::MAX), None);
        assert_eq!(Money(3).apart(Money(5)), Money(2));
    }

    #[test]
    fn a_half_goes_upwards() {
        for (exact, decimals, rounded) in [
            (1_234_999, 2, 1_230_000),
            (1_235_000, 2, 1_240_000),
            (4_999, 2, 0),
            (5_000, 2, 10_000),
            (499_999, 0, 0),
            (500_000, 0, 1_000_000),
            (1_234_567, 6, 1_234_567),
            (MOST, 0, MOST),
        ] {
            assert_eq!(Money(exact).rounded(decimals), Money(rounded), "{exact}");
        }
    }

    #[test]
    fn decimals_are_fixed() {
        assert_eq!(Money(0).bare(2), "0.00");
        assert_eq!(Money(1_234_500_000).bare(2), "1234.50");
        assert_eq!(Money(1_234_500_000).shown(2), "1,234.50");
        assert_eq!(Money(1_234_567).shown(6), "1.234567");
        assert_eq!(Money(7_000_000).shown(0), "7");
    }
}
