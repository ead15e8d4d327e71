//! What one of each costs, and how amounts are shown. The text that prices are
//! written in is read by `price_text`.

use super::money::{Money, PLACES};

/// The price of one of each, and the decimals of an amount.
#[derive(Clone, Debug, PartialEq, Eq)]
pub struct Prices {
    /// What amounts are given in.
    pub currency: String,
    /// Digits after the point of an amount, 0 to 6.
    pub decimals: u32,
    /// A page program.
    pub program: Money,
    /// An erase, of whatever unit.
    pub erase: Money,
    /// A status write.
    pub register_write: Money,
    /// A command that the chip ignored, whatever it was.
    pub ignored: Money,
}

impl Prices {
    /// The four prices: program, erase, register write, ignored.
    #[must_use]
    pub fn each(&self) -> [Money; 4] {
        [self.program, self.erase, self.register_write, self.ignored]
    }

    /// Decimals with which every price, and so the amount of one play, is
    /// exact: as many as they need, and not fewer than those of an amount.
    #[must_use]
    pub fn exact(&self) -> u32 {
        let enough = |decimals: &u32| {
            let shown = |price: &Money| price.rounded(*decimals) == *price;
            self.each().iter().all(shown)
        };
        (self.decimals..PLACES).find(enough).unwrap_or(PLACES)
    }

    /// An amount that is rounded, with its currency: `1,234.50 EUR`.
    #[must_use]
    pub fn in_currency(&self, amount: Money) -> String {
        format!("{} {}", amount.shown(self.decimals), self.currency)
    }
}

#[cfg(test)]
mod tests {
    use super::*;

    fn prices(decimals: u32, millionths: u64) -> Prices {
        let price = Money::new(millionths).expect("a price");
        Prices {
            currency: "EUR".to_string(),
            decimals,
            program: price,
            erase: Money::default(),
            register_write: Money::default(),
            ignored: Money::default(),
        }
    }

    #[test]
    fn exact_amounts_have_the_decimals_they_need() {
        for (decimals, price, exact) in [
            (2, 20_000, 2),
            (2, 5_000, 3),
            (2, 1, 6),
            (0, 0, 0),
            (0, 1_000_000, 0),
            (6, 0, 6),
        ] {
            assert_eq!(prices(decimals, price).exact(), exact, "{price}");
        }
    }
}
