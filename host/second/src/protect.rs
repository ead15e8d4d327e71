//! Which bytes a setting protects: Table 11.1.9 of the sheet, row by row.
//!
//! The table stands here as it is printed, don't-cares and all, and is matched
//! like a truth table; nothing is computed from the setting. The sheet prints
//! some ends with a seventh digit (`1FFFFFFh`, `0FFFFFFh`); its density column
//! and the chip's byte count show that `1FFFFF` and `0FFFFF` are meant.

use crate::geometry::Span;

/// One line of the table: the five bits in the sheet's column order, and the
/// stretch from first to last address.
struct Row {
    /// SEC, TB, BP2, BP1, BP0; `X` fits either value.
    bits: &'static [u8; 5],
    area: Option<Span>,
}

const fn none(bits: &'static [u8; 5]) -> Row {
    Row { bits, area: None }
}

const fn row(bits: &'static [u8; 5], first: u32, last: u32) -> Row {
    Row {
        bits,
        area: Some(Span { first, last }),
    }
}

const TABLE: [Row; 20] = [
    none(b"XX000"),
    row(b"00001", 0x1F_0000, 0x1F_FFFF),
    row(b"00010", 0x1E_0000, 0x1F_FFFF),
    row(b"00011", 0x1C_0000, 0x1F_FFFF),
    row(b"00100", 0x18_0000, 0x1F_FFFF),
    row(b"00101", 0x10_0000, 0x1F_FFFF),
    row(b"01001", 0x00_0000, 0x00_FFFF),
    row(b"01010", 0x00_0000, 0x01_FFFF),
    row(b"01011", 0x00_0000, 0x03_FFFF),
    row(b"01100", 0x00_0000, 0x07_FFFF),
    row(b"01101", 0x00_0000, 0x0F_FFFF),
    row(b"XX11X", 0x00_0000, 0x1F_FFFF),
    row(b"10001", 0x1F_F000, 0x1F_FFFF),
    row(b"10010", 0x1F_E000, 0x1F_FFFF),
    row(b"10011", 0x1F_C000, 0x1F_FFFF),
    row(b"1010X", 0x1F_8000, 0x1F_FFFF),
    row(b"11001", 0x00_0000, 0x00_0FFF),
    row(b"11010", 0x00_0000, 0x00_1FFF),
    row(b"11011", 0x00_0000, 0x00_3FFF),
    row(b"1110X", 0x00_0000, 0x00_7FFF),
];

impl Row {
    fn fits(&self, bits: [bool; 5]) -> bool {
        self.bits
            .iter()
            .zip(bits)
            .all(|(&printed, bit)| printed == b'X' || (printed == b'1') == bit)
    }
}

/// The five columns of a setting 0 to 31 (S6..S2 read as a number).
pub(crate) fn bits_of(setting: u8) -> [bool; 5] {
    [16, 8, 4, 2, 1].map(|weight| setting & weight != 0)
}

/// The protected stretch, if there is one.
fn area(bits: [bool; 5]) -> Option<Span> {
    TABLE
        .iter()
        .find(|row| row.fits(bits))
        .and_then(|row| row.area)
}

/// Whether some byte of `span` is protected. A whole page or unit is asked
/// for, not its addressed byte: an erase of 32 KB may begin below the area.
pub(crate) fn touches(bits: [bool; 5], span: Span) -> bool {
    area(bits).is_some_and(|area| area.meets(span))
}

#[cfg(test)]
mod tests {
    use super::*;
    use crate::geometry::{CHIP, PAGE, Unit};

    /// The paper's own table, by arithmetic: how many bytes, and which end.
    fn paper_protects(setting: u8, address: u32) -> bool {
        let (sec, tb, bp) = (setting >> 4 & 1, setting >> 3 & 1, setting & 7);
        let kib = match (bp, sec) {
            (0, _) => 0,
            (1, 0) => 64,
            (2, 0) => 128,
            (3, 0) => 256,
            (4, 0) => 512,
            (5, 0) => 1_024,
            (1, _) => 4,
            (2, _) => 8,
            (3, _) => 16,
            (4 | 5, _) => 32,
            _ => 2_048,
        };
        if tb == 1 {
            address < kib * 1_024
        } else {
            address >= CHIP - kib * 1_024
        }
    }

    fn is_protected(setting: u8, address: u32) -> bool {
        touches(
            bits_of(setting),
            Span {
                first: address,
                last: address,
            },
        )
    }

    #[test]
    fn each_setting_fits_exactly_one_row() {
        for setting in 0..32 {
            let fitting = TABLE.iter().filter(|row| row.fits(bits_of(setting)));
            assert_eq!(fitting.count(), 1, "setting {setting}");
        }
    }

    #[test]
    fn the_sheet_agrees_with_the_paper_at_both_ends_of_each_page() {
        for setting in 0..32 {
            for page in 0..CHIP / PAGE {
                for address in [page * PAGE, page * PAGE + 255] {
                    let paper = paper_protects(setting, address);
                    assert_eq!(is_protected(setting, address), paper);
                }
            }
        }
    }

    #[test]
    fn areas_are_whole_pages() {
        for row in TABLE.iter().filter_map(|row| row.area) {
            assert_eq!(row.first % PAGE, 0);
            assert_eq!((row.last + 1) % PAGE, 0);
            assert!(row.last < CHIP);
        }
    }

    #[test]
    fn a_unit_is_touched_when_one_of_its_bytes_is() {
        for setting in 0..32 {
            for unit in [Unit::Sector, Unit::HalfBlock, Unit::Block, Unit::Chip] {
                for at in (0..CHIP).step_by(unit.size() as usize) {
                    let span = unit.holding(at);
                    let mut pages = (span.first..=span.last).step_by(PAGE as usize);
                    let byte_by_byte = pages.any(|byte| paper_protects(setting, byte));
                    assert_eq!(touches(bits_of(setting), span), byte_by_byte);
                }
            }
        }
    }
}
