//! The chip's registers as single flip-flops.
//!
//! The caller keeps a 16-bit word and a number for awake. The word is taken
//! apart once, where it is also found to be well formed, so that no later step
//! can meet a status that the chip cannot have.

use crate::Regs;

/// Every bit the chip keeps, one flip-flop each.
#[derive(Clone, Copy, Debug, PartialEq, Eq)]
pub(crate) struct Latches {
    pub(crate) busy: bool,
    pub(crate) wel: bool,
    /// BP0, BP1, BP2 in this order.
    bp: [bool; 3],
    tb: bool,
    sec: bool,
    srp0: bool,
    srp1: bool,
    qe: bool,
    pub(crate) awake: bool,
}

/// Bit `place` of `word`.
fn bit(word: u32, place: u32) -> bool {
    (word >> place) & 1 == 1
}

/// A byte from its bits, S0 (or S8) first.
fn byte(bits: [bool; 8]) -> u8 {
    bits.iter()
        .rev()
        .fold(0, |byte, &bit| (byte << 1) | u8::from(bit))
}

impl Latches {
    /// Takes the caller's registers apart; nothing where they are not well
    /// formed. Both numbers are judged at their full width: whatever does not
    /// fit would be lost by taking it apart and be handed back changed.
    pub(crate) fn well_formed(regs: Regs) -> Option<Latches> {
        if regs.awake > 1 || regs.status >> 10 != 0 {
            return None;
        }
        let latches = Latches::taken_apart(regs.status, regs.awake == 1);
        let sound = !latches.busy || (latches.wel && latches.awake);
        sound.then_some(latches)
    }

    fn taken_apart(word: u32, awake: bool) -> Latches {
        Latches {
            busy: bit(word, 0),
            wel: bit(word, 1),
            bp: [bit(word, 2), bit(word, 3), bit(word, 4)],
            tb: bit(word, 5),
            sec: bit(word, 6),
            srp0: bit(word, 7),
            srp1: bit(word, 8),
            qe: bit(word, 9),
            awake,
        }
    }

    /// The registers as the caller keeps them.
    pub(crate) fn regs(&self) -> Regs {
        let word = u16::from_be_bytes([self.high_byte(), self.low_byte()]);
        Regs {
            status: u32::from(word),
            awake: u32::from(self.awake),
        }
    }

    /// S7 to S0, as command 05 shows them.
    pub(crate) fn low_byte(&self) -> u8 {
        let [bp0, bp1, bp2] = self.bp;
        byte([
            self.busy, self.wel, bp0, bp1, bp2, self.tb, self.sec, self.srp0,
        ])
    }

    /// S15 to S8, as command 35 shows them.
    pub(crate) fn high_byte(&self) -> u8 {
        byte([self.srp1, self.qe, false, false, false, false, false, false])
    }

    /// SEC, TB, BP2, BP1, BP0: the columns of Table 11.1.9 in its own order.
    pub(crate) fn protection_bits(&self) -> [bool; 5] {
        let [bp0, bp1, bp2] = self.bp;
        [self.sec, self.tb, bp2, bp1, bp0]
    }

    /// Whether a status write is locked out at this level of /WP. With QE set
    /// the pin is a data line and locks nothing.
    pub(crate) fn locked(&self, wp_high: bool) -> bool {
        self.srp1 || (self.srp0 && !wp_high && !self.qe)
    }

    /// Status write: the first byte's upper six bits, and the second byte's
    /// lowest two where one was sent. BUSY and WEL are not for writing.
    pub(crate) fn write(&mut self, first: u8, second: Option<u8>) {
        let first = u32::from(first);
        self.bp = [bit(first, 2), bit(first, 3), bit(first, 4)];
        self.tb = bit(first, 5);
        self.sec = bit(first, 6);
        self.srp0 = bit(first, 7);
        if let Some(second) = second.map(u32::from) {
            self.srp1 = bit(second, 0);
            self.qe = bit(second, 1);
        }
    }

    /// A finish event: what was going on is done, and writing is off again.
    pub(crate) fn finish(&mut self) {
        if self.busy {
            self.busy = false;
            self.wel = false;
        }
    }

    /// A power cycle; it also ends the lock that holds until the next one.
    pub(crate) fn power_cycle(&mut self) {
        self.awake = true;
        self.busy = false;
        self.wel = false;
        if !self.srp0 {
            self.srp1 = false;
        }
    }
}

#[cfg(test)]
mod tests {
    use super::*;

    fn paper_says_well_formed(status: u32, awake: u32) -> bool {
        let busy = status & 1 == 1;
        let wel = status & 2 == 2;
        status & 0xFC00 == 0 && (!busy || wel) && (!busy || awake == 1)
    }

    #[test]
    fn every_word_is_judged_and_kept() {
        for status in 0..=0xFFFF {
            for awake in 0..=1 {
                let regs = Regs { status, awake };
                let latches = Latches::well_formed(regs);
                assert_eq!(latches.is_some(), paper_says_well_formed(status, awake));
                if let Some(latches) = latches {
                    assert_eq!(latches.regs(), regs);
                    assert_eq!(u32::from(latches.low_byte()), status & 0xFF);
                    assert_eq!(u32::from(latches.high_byte()), status >> 8);
                }
            }
        }
    }

    #[test]
    fn wide_numbers_are_not_narrowed() {
        for (status, awake) in [
            (0x1_0000, 1),
            (0x8000_0000, 1),
            (u32::MAX, 1),
            (0, 2),
            (0, 256),
            (0, 257),
            (0, u32::MAX),
        ] {
            assert_eq!(Latches::well_formed(Regs { status, awake }), None);
        }
    }

    #[test]
    fn a_lock_is_the_papers_sentence() {
        for status in (0..0x400u32).filter(|word| word & 1 == 0) {
            let latches = Latches::well_formed(Regs { status, awake: 1 }).unwrap();
            let (srp0, srp1, qe) = (status & 0x80 != 0, status & 0x100 != 0, status & 0x200 != 0);
            assert_eq!(latches.locked(true), srp1);
            assert_eq!(latches.locked(false), srp1 || (srp0 && !qe));
        }
    }
}
