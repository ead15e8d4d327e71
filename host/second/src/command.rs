//! The paper's command table as data.
//!
//! A command either drives the output or is *silent*. Exactly the silent ones
//! must end on a whole byte. This is what lets the bus drive a byte the moment
//! its place is reached: once a driving command has reached its first driven
//! place, nothing at deselect can turn it into an ignored one.

use core::ops::RangeInclusive;

use crate::geometry::Unit;

/// What a driving command puts out.
#[derive(Clone, Copy, Debug, PartialEq, Eq)]
pub(crate) enum Source {
    LowStatus,
    HighStatus,
    Array,
    Device,
    MakerAndDevice,
    Jedec,
}

/// What a command does when it is deselected and found good.
#[derive(Clone, Copy, Debug, PartialEq, Eq)]
pub(crate) enum Effect {
    Nothing,
    SetWel(bool),
    WriteStatus,
    Program,
    Erase(Unit),
    Sleep,
    Wake,
}

impl Effect {
    /// Whether WEL must be 1: a write, an erase or a status write.
    pub(crate) fn needs_wel(self) -> bool {
        matches!(
            self,
            Effect::WriteStatus | Effect::Program | Effect::Erase(_)
        )
    }
}

/// Where driving begins, and what is driven from there on.
#[derive(Clone, Copy, Debug, PartialEq, Eq)]
pub(crate) struct Drive {
    pub(crate) from: usize,
    pub(crate) source: Source,
}

/// One row of the table.
#[derive(Debug, PartialEq, Eq)]
pub(crate) struct Command {
    /// The op codes; the first is the one that names the command.
    codes: &'static [u8],
    /// How many bytes may be clocked in.
    counts: RangeInclusive<usize>,
    /// Nothing for a silent command.
    pub(crate) drive: Option<Drive>,
    pub(crate) effect: Effect,
}

const MORE: usize = usize::MAX;

const fn silent(codes: &'static [u8], counts: RangeInclusive<usize>, effect: Effect) -> Command {
    Command {
        codes,
        counts,
        drive: None,
        effect,
    }
}

const fn driving(
    codes: &'static [u8],
    least: usize,
    from: usize,
    source: Source,
    effect: Effect,
) -> Command {
    Command {
        codes,
        counts: least..=MORE,
        drive: Some(Drive { from, source }),
        effect,
    }
}

static TABLE: [Command; 16] = [
    silent(&[0x06], 1..=1, Effect::SetWel(true)),
    silent(&[0x04], 1..=1, Effect::SetWel(false)),
    driving(&[0x05], 1, 1, Source::LowStatus, Effect::Nothing),
    driving(&[0x35], 1, 1, Source::HighStatus, Effect::Nothing),
    silent(&[0x01], 2..=3, Effect::WriteStatus),
    driving(&[0x03], 4, 4, Source::Array, Effect::Nothing),
    driving(&[0x0B], 5, 5, Source::Array, Effect::Nothing),
    silent(&[0x02], 5..=MORE, Effect::Program),
    silent(&[0x20], 4..=4, Effect::Erase(Unit::Sector)),
    silent(&[0x52], 4..=4, Effect::Erase(Unit::HalfBlock)),
    silent(&[0xD8], 4..=4, Effect::Erase(Unit::Block)),
    silent(&[0xC7, 0x60], 1..=1, Effect::Erase(Unit::Chip)),
    silent(&[0xB9], 1..=1, Effect::Sleep),
    driving(&[0xAB], 1, 4, Source::Device, Effect::Wake),
    driving(&[0x90], 4, 4, Source::MakerAndDevice, Effect::Nothing),
    driving(&[0x9F], 1, 1, Source::Jedec, Effect::Nothing),
];

impl Command {
    /// The command an op code stands for, if the paper's table has one.
    pub(crate) fn of(code: u8) -> Option<&'static Command> {
        TABLE.iter().find(|command| command.codes.contains(&code))
    }

    /// The op code that names the command: C7 for 60 too.
    pub(crate) fn code(&self) -> u8 {
        self.codes[0]
    }

    /// Whether the transaction's size is right for the command.
    pub(crate) fn takes(&self, n: usize, leftover: u32) -> bool {
        self.counts.contains(&n) && (leftover == 0 || self.drive.is_some())
    }
}

#[cfg(test)]
mod tests {
    use super::*;

    /// The paper: "Leftover bits must be 0 for ...; the others don't care."
    const WHOLE_BYTES: [u8; 10] = [0x06, 0x04, 0x01, 0x02, 0x20, 0x52, 0xD8, 0xC7, 0x60, 0xB9];
    const DONT_CARE: [u8; 7] = [0x05, 0x35, 0x03, 0x0B, 0xAB, 0x90, 0x9F];

    #[test]
    fn exactly_the_papers_codes_are_known() {
        for code in 0..=255 {
            let listed = WHOLE_BYTES.contains(&code) || DONT_CARE.contains(&code);
            assert_eq!(Command::of(code).is_some(), listed, "{code:02X}");
        }
    }

    #[test]
    fn exactly_the_papers_codes_need_whole_bytes() {
        for code in WHOLE_BYTES {
            let command = Command::of(code).unwrap();
            let n = *command.counts.start();
            assert!(command.takes(n, 0) && (1..8).all(|bits| !command.takes(n, bits)));
        }
        for code in DONT_CARE {
            let command = Command::of(code).unwrap();
            let n = *command.counts.start();
            assert!((0..8).all(|bits| command.takes(n, bits)));
        }
    }

    #[test]
    fn a_driven_place_lies_past_the_least_count() {
        // So a command with too few bytes has driven nothing yet, and since a
        // driving command has no upper count, driving commits it.
        for command in &TABLE {
            if let Some(drive) = command.drive {
                assert!(drive.from >= *command.counts.start());
                assert_eq!(*command.counts.end(), MORE);
                assert!(!command.effect.needs_wel());
            }
        }
    }
}
