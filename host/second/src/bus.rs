//! The chip on its bus, one clocked byte at a time.
//!
//! The decoder sees no whole transaction: it latches bytes as they come,
//! drives each output byte while its place is clocked, and only at deselect
//! learns that the transaction is over, judges it and lets it take effect.

use crate::command::{Command, Effect, Source};
use crate::geometry::{CHIP, Span};
use crate::protect;
use crate::status::Latches;

/// The maker of 001, 11.2.1.
const MAKER: u8 = 0xF8;
/// The device byte that AB and 90 show.
const DEVICE: u8 = 0x14;
/// What 9F shows: the maker, then the two-byte device number.
const JEDEC: [u8; 3] = [0xF8, 0x32, 0x15];
/// The line where the chip drives nothing.
const UNDRIVEN: u8 = 0xFF;

/// What the decoder has made of the bytes since select.
#[derive(Clone, Copy, Debug)]
enum Hearing {
    /// No whole byte yet.
    Nothing,
    /// The op code was refused; the rest is clocked past deaf ears.
    Deaf(u32),
    /// A known op code that the chip is free to obey.
    Obeying(&'static Command),
}

/// Data sent to the page so far: the last byte for each place sent.
type PageLatch = [Option<u8>; 256];

/// The chip between power and bus.
pub(crate) struct Chip<'a> {
    pub(crate) latches: Latches,
    array: &'a mut [u8],
    hearing: Hearing,
    /// Whole bytes clocked since select.
    place: usize,
    /// Bits clocked after the last whole byte.
    leftover: u32,
    /// The address register; it counts on while the array is read.
    address: u32,
    /// The byte or two of a status write.
    status_bytes: [u8; 2],
    page: PageLatch,
}

impl<'a> Chip<'a> {
    /// The chip with its registers and the array lent to it, not selected.
    pub(crate) fn new(latches: Latches, array: &'a mut [u8]) -> Chip<'a> {
        Chip {
            latches,
            array,
            hearing: Hearing::Nothing,
            place: 0,
            leftover: 0,
            address: 0,
            status_bytes: [0; 2],
            page: [None; 256],
        }
    }

    /// /CS goes low: whatever the decoder held is gone.
    pub(crate) fn select(&mut self) {
        self.hearing = Hearing::Nothing;
        self.place = 0;
        self.leftover = 0;
        self.address = 0;
        self.status_bytes = [0; 2];
        self.page = [None; 256];
    }

    /// Eight clocks: a byte in, and the byte driven at the same place.
    pub(crate) fn clock_byte(&mut self, sent: u8) -> u8 {
        let place = self.place;
        self.place += 1;
        if place == 0 {
            self.hearing = self.hear(sent);
        }
        match self.hearing {
            Hearing::Obeying(command) if place > 0 => {
                let driven = self.drive(command, place);
                self.latch(command, place, sent);
                driven
            }
            _ => UNDRIVEN,
        }
    }

    /// `bits` clocks that do not make up a byte.
    pub(crate) fn clock_bits(&mut self, bits: u32) {
        self.leftover = bits;
    }

    /// /CS goes high: the verdict, and with it the command's effect. Ignored
    /// commands leave everything, WEL too.
    pub(crate) fn deselect(&mut self, wp_high: bool) -> Result<&'static Command, u32> {
        let verdict = self.verdict(wp_high);
        if let Ok(command) = verdict {
            self.take_effect(command.effect);
        }
        verdict
    }

    /// Whether the op code is heard at all: 11, 10 and 12 in this order.
    fn hear(&self, code: u8) -> Hearing {
        if !self.latches.awake && code != 0xAB {
            return Hearing::Deaf(11);
        }
        if self.latches.busy && code != 0x05 && code != 0x35 {
            return Hearing::Deaf(10);
        }
        Command::of(code).map_or(Hearing::Deaf(12), Hearing::Obeying)
    }

    /// The byte on the output line at `place`.
    fn drive(&mut self, command: &Command, place: usize) -> u8 {
        match command.drive {
            Some(drive) if place >= drive.from => self.shown(drive.source, place),
            _ => UNDRIVEN,
        }
    }

    fn shown(&mut self, source: Source, place: usize) -> u8 {
        match source {
            Source::LowStatus => self.latches.low_byte(),
            Source::HighStatus => self.latches.high_byte(),
            Source::Array => self.array[self.counted_address() as usize],
            Source::Device => DEVICE,
            Source::MakerAndDevice => [MAKER, DEVICE][self.counted_address() as usize % 2],
            Source::Jedec => JEDEC.get(place - 1).copied().unwrap_or(UNDRIVEN),
        }
    }

    /// The address register, which then counts on and wraps at the end.
    fn counted_address(&mut self) -> u32 {
        let address = self.address;
        self.address = (address + 1) % CHIP;
        address
    }

    /// Keeps what the byte at `place` (1 or later) is for. Commands without an
    /// address never look at the address register, so it shifts for all.
    fn latch(&mut self, command: &Command, place: usize, sent: u8) {
        match (command.effect, place) {
            (Effect::WriteStatus, 1 | 2) => self.status_bytes[place - 1] = sent,
            (_, 1..=3) => self.address = (self.address << 8 | u32::from(sent)) % CHIP,
            (Effect::Program, _) => self.latch_data(sent),
            _ => {}
        }
    }

    /// A data byte goes to the address register's place in the page; only the
    /// register's low byte counts on, so the data wrap inside the page.
    fn latch_data(&mut self, sent: u8) {
        let [_, high, middle, low] = self.address.to_be_bytes();
        self.page[usize::from(low)] = Some(sent);
        self.address = u32::from_be_bytes([0, high, middle, low.wrapping_add(1)]);
    }

    /// The paper's list of verdicts, first that applies; [`Chip::hear`] has
    /// already settled those that the op code alone decides.
    fn verdict(&self, wp_high: bool) -> Result<&'static Command, u32> {
        let command = match self.hearing {
            Hearing::Nothing => return Err(12),
            Hearing::Deaf(number) => return Err(number),
            Hearing::Obeying(command) => command,
        };
        if !command.takes(self.place, self.leftover) {
            return Err(13);
        }
        if command.effect.needs_wel() && !self.latches.wel {
            return Err(14);
        }
        if command.effect == Effect::WriteStatus && self.latches.locked(wp_high) {
            return Err(15);
        }
        if self.aims_at_protected(command.effect) {
            return Err(16);
        }
        Ok(command)
    }

    /// Whether some byte of the page or unit aimed at is protected.
    fn aims_at_protected(&self, effect: Effect) -> bool {
        let aim = match effect {
            Effect::Program => Span::page(self.address),
            Effect::Erase(unit) => unit.holding(self.address),
            _ => return false,
        };
        protect::touches(self.latches.protection_bits(), aim)
    }

    fn take_effect(&mut self, effect: Effect) {
        match effect {
            Effect::Nothing => {}
            Effect::SetWel(level) => self.latches.wel = level,
            Effect::Sleep => self.latches.awake = false,
            Effect::Wake => self.latches.awake = true,
            Effect::WriteStatus => self.write_status(),
            Effect::Program => self.program(),
            Effect::Erase(unit) => self.array[unit.holding(self.address).places()].fill(0xFF),
        }
        if effect.needs_wel() {
            self.latches.busy = true;
        }
    }

    fn write_status(&mut self) {
        let [first, second] = self.status_bytes;
        let sent_two = self.place == 3;
        self.latches.write(first, sent_two.then_some(second));
    }

    /// Each place sent can only lose ones; no other byte of the page changes.
    fn program(&mut self) {
        let page = &mut self.array[Span::page(self.address).places()];
        for (old, sent) in page.iter_mut().zip(self.page) {
            if let Some(new) = sent {
                *old &= new;
            }
        }
    }
}

#[cfg(test)]
mod tests {
    use super::*;
    use crate::Regs;

    fn chip(status: u32, array: &mut [u8]) -> Chip<'_> {
        let latches = Latches::well_formed(Regs { status, awake: 1 }).unwrap();
        Chip::new(latches, array)
    }

    #[test]
    fn select_forgets_an_unfinished_transaction() {
        let mut array = vec![0xFF; CHIP as usize];
        let mut chip = chip(2, &mut array);
        chip.select();
        for sent in [0x02, 0, 0, 0, 0x00, 0x00] {
            chip.clock_byte(sent);
        }
        chip.select();
        for sent in [0x02, 0, 0, 0, 0x77] {
            chip.clock_byte(sent);
        }
        assert_eq!(chip.deselect(true).map(Command::code), Ok(0x02));
        assert_eq!(array[..3], [0x77, 0xFF, 0xFF]);
    }

    #[test]
    fn nothing_changes_before_deselect() {
        let mut array = vec![0xFF; CHIP as usize];
        let mut chip = chip(2, &mut array);
        chip.select();
        for sent in [0x02, 0, 0, 0, 0x77] {
            assert_eq!(chip.clock_byte(sent), UNDRIVEN);
        }
        assert_eq!(chip.latches.regs().status, 2);
        assert_eq!(chip.array[0], 0xFF);
        assert!(chip.deselect(true).is_ok());
        assert_eq!(chip.latches.regs().status, 3);
        assert_eq!(chip.array[0], 0x77);
    }

    #[test]
    fn the_array_is_driven_while_it_is_clocked() {
        let mut array = vec![0; CHIP as usize];
        array[0x12_3456..][..2].copy_from_slice(&[0xA1, 0xB2]);
        let mut chip = chip(0, &mut array);
        chip.select();
        let driven = [0x03, 0x12, 0x34, 0x56, 9, 9].map(|sent| chip.clock_byte(sent));
        assert_eq!(driven, [0xFF, 0xFF, 0xFF, 0xFF, 0xA1, 0xB2]);
        chip.clock_bits(5);
        assert_eq!(chip.deselect(false).map(Command::code), Ok(0x03));
    }
}
