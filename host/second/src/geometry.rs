//! The sizes of the billed chip and the pieces it erases and programs.
//!
//! Each size has one name per rule of the paper, even where two rules happen
//! to give the same number, so that a change of one rule cannot move another.

/// Bytes of the whole array; addresses are taken modulo this.
pub(crate) const CHIP: u32 = 2_097_152;
/// Bytes of one page, the most that a single program reaches.
pub(crate) const PAGE: u32 = 256;

/// A stretch of the array, both ends inside it.
#[derive(Clone, Copy, Debug, PartialEq, Eq)]
pub(crate) struct Span {
    pub(crate) first: u32,
    pub(crate) last: u32,
}

impl Span {
    /// The aligned stretch of `size` bytes that holds `address`.
    fn aligned(size: u32, address: u32) -> Span {
        let first = address - address % size;
        Span {
            first,
            last: first + (size - 1),
        }
    }

    /// The page that holds `address`.
    pub(crate) fn page(address: u32) -> Span {
        Span::aligned(PAGE, address)
    }

    /// The places of the span as indices of the lent array.
    pub(crate) fn places(self) -> core::ops::RangeInclusive<usize> {
        self.first as usize..=self.last as usize
    }

    /// Whether the two stretches have some byte in common.
    pub(crate) fn meets(self, other: Span) -> bool {
        self.first <= other.last && other.first <= self.last
    }

    /// Whether `address` lies in the stretch.
    #[cfg(test)]
    pub(crate) fn holds(self, address: u32) -> bool {
        (self.first..=self.last).contains(&address)
    }
}

/// What one erase clears.
#[derive(Clone, Copy, Debug, PartialEq, Eq)]
pub(crate) enum Unit {
    /// 4 KB, command 20.
    Sector,
    /// 32 KB, command 52.
    HalfBlock,
    /// 64 KB, command D8.
    Block,
    /// Everything, commands C7 and 60.
    Chip,
}

impl Unit {
    /// How many bytes the unit has.
    pub(crate) fn size(self) -> u32 {
        match self {
            Unit::Sector => 4_096,
            Unit::HalfBlock => 32_768,
            Unit::Block => 65_536,
            Unit::Chip => CHIP,
        }
    }

    /// The unit of this kind that holds `address`.
    pub(crate) fn holding(self, address: u32) -> Span {
        Span::aligned(self.size(), address)
    }
}

#[cfg(test)]
mod tests {
    use super::*;

    #[test]
    fn the_paper_counts_its_units() {
        assert_eq!(CHIP / PAGE, 8_192);
        assert_eq!(CHIP / Unit::Sector.size(), 512);
        assert_eq!(CHIP / Unit::HalfBlock.size(), 64);
        assert_eq!(CHIP / Unit::Block.size(), 32);
        assert_eq!(CHIP / Unit::Chip.size(), 1);
    }

    #[test]
    fn a_unit_holds_its_address_and_nothing_past_it() {
        for unit in [Unit::Sector, Unit::HalfBlock, Unit::Block, Unit::Chip] {
            for address in [0, 1, 0x0F_FFFF, 0x10_0000, CHIP - 1] {
                let span = unit.holding(address);
                assert!(span.holds(address));
                assert_eq!(span.first % unit.size(), 0);
                assert_eq!(span.last - span.first + 1, unit.size());
            }
        }
    }

    #[test]
    fn spans_meet_when_they_share_a_byte() {
        let span = |first, last| Span { first, last };
        assert!(span(0, 5).meets(span(5, 9)));
        assert!(span(5, 9).meets(span(0, 5)));
        assert!(span(0, 9).meets(span(4, 4)));
        assert!(!span(0, 4).meets(span(5, 9)));
        assert!(!span(5, 9).meets(span(0, 4)));
    }
}
