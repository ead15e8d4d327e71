//! Which sectors of an array are other than erased, or have changed.

use crate::pool::sectors::SECTOR;
use crate::words::address;
use tunebriar::{Kind, SIZE};

/// Some sectors of an array.
#[derive(Clone, Debug, PartialEq, Eq)]
pub struct Marks(Vec<bool>);

/// Sectors of an array.
const ALL: usize = SIZE / SECTOR;

impl Default for Marks {
    fn default() -> Marks {
        Marks(vec![false; ALL])
    }
}

impl Marks {
    /// Marks a sector.
    pub fn mark(&mut self, place: usize) {
        self.0[place] = true;
    }

    /// Marks what a transaction that was carried out can have changed: the page
    /// of a program, the unit of an erase.
    pub fn carried_out(&mut self, kind: Kind, bytes: &[u8]) {
        let sectors = match kind {
            Kind::Program | Kind::EraseSector => 1,
            Kind::EraseHalfBlock => 8,
            Kind::EraseBlock => 16,
            Kind::EraseAll => ALL,
            _ => return,
        };
        let first = address(bytes).unwrap_or(0) / SECTOR / sectors * sectors;
        self.0[first..first + sectors].fill(true);
    }

    /// The marked sectors.
    pub fn places(&self) -> impl Iterator<Item = usize> + '_ {
        let marked = self.0.iter().enumerate().filter(|(_, marked)| **marked);
        marked.map(|(place, _)| place)
    }

    /// Marks no sector.
    pub fn clear(&mut self) {
        self.0.fill(false);
    }
}

#[cfg(test)]
mod tests {
    use super::*;

    #[test]
    fn what_can_have_changed_is_marked() {
        for (kind, bytes, places) in [
            (Kind::Program, &[2, 0x00, 0x1F, 0xFF, 1][..], 1..2),
            (Kind::EraseSector, &[0x20, 0x1F, 0xFF, 0xFF], 511..512),
            (Kind::EraseHalfBlock, &[0x52, 0x01, 0x90, 0x00], 24..32),
            (Kind::EraseBlock, &[0xD8, 0xE1, 0x90, 0x00], 16..32),
            (Kind::EraseAll, &[0xC7], 0..512),
            (Kind::WriteStatus, &[0x01, 0x00], 0..0),
        ] {
            let mut marks = Marks::default();
            marks.carried_out(kind, bytes);
            assert_eq!(
                marks.places().collect::<Vec<_>>(),
                places.collect::<Vec<_>>()
            );
        }
    }
}
