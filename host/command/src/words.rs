//! The library's answers in words.

use crate::areas;
use crate::numbers::grouped;
use tunebriar::{Kind, Meter, Reason, Registers, SIZE, Verdict};

/// Why a transaction was ignored.
#[must_use]
pub fn reason(reason: Reason) -> &'static str {
    match reason {
        Reason::Busy => "the chip was busy",
        Reason::Asleep => "the chip was asleep",
        Reason::Unknown => "no whole byte, or no such command",
        Reason::WrongSize => "wrong byte count, or leftover bits",
        Reason::WriteDisabled => "not write enabled (WEL was 0)",
        Reason::Locked => "the status was locked",
        Reason::Protected => "a protected byte in the page or unit",
    }
}

/// What a kind of command does.
#[must_use]
pub fn kind(kind: Kind) -> &'static str {
    match kind {
        Kind::WriteEnable => "write enable",
        Kind::WriteDisable => "write disable",
        Kind::LowStatus => "read of the low status byte",
        Kind::HighStatus => "read of the high status byte",
        Kind::WriteStatus => "status write",
        Kind::Read => "read",
        Kind::FastRead => "fast read",
        Kind::Program => "page program",
        Kind::EraseSector => "erase of 4 KB",
        Kind::EraseHalfBlock => "erase of 32 KB",
        Kind::EraseBlock => "erase of 64 KB",
        Kind::EraseAll => "erase of all",
        Kind::Sleep => "to sleep",
        Kind::Wake => "wake up",
        Kind::Identify => "maker and device byte",
        Kind::Jedec => "JEDEC bytes",
    }
}

/// What was sent: its command, and its address where it has one.
#[must_use]
pub fn sent(bytes: &[u8]) -> String {
    let Some(&code) = bytes.first() else {
        return "no whole byte".to_string();
    };
    let name = Kind::of(code).map_or("no such command", kind);
    match address(bytes) {
        Some(address) => format!("{code:02X} {name} at 0x{address:06X}"),
        None => format!("{code:02X} {name}"),
    }
}

/// The address of a transaction, where its command takes one: three bytes,
/// high first, modulo the array's size.
#[must_use]
pub fn address(bytes: &[u8]) -> Option<usize> {
    let [
        0x02 | 0x03 | 0x0B | 0x20 | 0x52 | 0xD8 | 0x90,
        high,
        middle,
        low,
        ..,
    ] = *bytes
    else {
        return None;
    };
    let sent = u32::from_be_bytes([0, high, middle, low]);
    Some(sent as usize % SIZE)
}

/// A verdict with its number.
#[must_use]
pub fn verdict(verdict: Verdict) -> String {
    match verdict {
        Verdict::CarriedOut(done) => format!("0, carried out: {}", kind(done)),
        Verdict::Ignored(why) => format!("{}, ignored: {}", why as u32, reason(why)),
    }
}

/// The registers by name.
#[must_use]
pub fn registers(registers: Registers) -> String {
    let bit = |place: u16| registers.status >> place & 1;
    let (setting, status) = (registers.setting(), registers.status);
    format!(
        "0x{status:04X} {}, BUSY {} WEL {} BP {} TB {} SEC {} SRP0 {} SRP1 {} QE {}, \
         setting {setting} ({})",
        if registers.awake { "awake" } else { "asleep" },
        bit(0),
        bit(1),
        status >> 2 & 7,
        bit(5),
        bit(6),
        bit(7),
        bit(8),
        bit(9),
        areas::name(setting),
    )
}

/// The meter's four counts.
#[must_use]
pub fn meter(meter: Meter) -> String {
    let Meter {
        programs,
        erases,
        register_writes,
        ignored,
    } = meter;
    format!(
        "programs {}, erases {}, register writes {}, ignored {}",
        grouped(programs),
        grouped(erases),
        grouped(register_writes),
        grouped(ignored)
    )
}
