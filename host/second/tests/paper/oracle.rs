//! Document 01 once more, as a plain function of a whole transaction: the
//! verdict list top down, then output, registers, meter and array by sentence.
//! It has no bus, no decoder and no table of rows.

use crate::common::SIZE;
use second::{Meter, Regs};

/// Whether the setting protects the byte: an amount of KB, and an end.
pub fn protects(setting: u32, address: usize) -> bool {
    let large = [0, 64, 128, 256, 512, 1_024, 2_048, 2_048];
    let small = [0, 4, 8, 16, 32, 32, 2_048, 2_048];
    let amounts = if setting & 16 == 0 { large } else { small };
    let bytes = amounts[setting as usize & 7] * 1_024;
    if setting & 8 == 0 {
        address >= SIZE - bytes
    } else {
        address < bytes
    }
}

fn address(bytes: &[u8]) -> usize {
    let [high, middle, low] = [1, 2, 3].map(|k| usize::from(bytes[k]));
    (high * 65_536 + middle * 256 + low) % SIZE
}

/// The first byte and the size of what a write or erase aims at.
fn aim(bytes: &[u8]) -> Option<(usize, usize)> {
    let size = match bytes[0] {
        0x02 => 256,
        0x20 => 4_096,
        0x52 => 32_768,
        0xD8 => 65_536,
        0xC7 | 0x60 => return Some((0, SIZE)),
        _ => return None,
    };
    Some((address(bytes) / size * size, size))
}

fn fits(code: u8, n: usize, leftover: u32) -> Option<bool> {
    let whole = leftover == 0;
    Some(match code {
        0x06 | 0x04 | 0xC7 | 0x60 | 0xB9 => n == 1 && whole,
        0x01 => (n == 2 || n == 3) && whole,
        0x20 | 0x52 | 0xD8 => n == 4 && whole,
        0x02 => n >= 5 && whole,
        0x05 | 0x35 | 0xAB | 0x9F => n >= 1,
        0x03 | 0x90 => n >= 4,
        0x0B => n >= 5,
        _ => return None,
    })
}

pub fn verdict(regs: Regs, leftover: u32, wp: u32, bytes: &[u8]) -> u32 {
    let status = regs.status;
    let on = |place: u32| status >> place & 1 == 1;
    let Some(&code) = bytes.first() else {
        return 12;
    };
    if regs.awake == 0 && code != 0xAB {
        return 11;
    }
    if on(0) && code != 0x05 && code != 0x35 {
        return 10;
    }
    match fits(code, bytes.len(), leftover) {
        None => return 12,
        Some(false) => return 13,
        Some(true) => {}
    }
    let writes = [0x01, 0x02, 0x20, 0x52, 0xD8, 0xC7, 0x60].contains(&code);
    if writes && !on(1) {
        return 14;
    }
    if code == 0x01 && (on(8) || (on(7) && wp == 0 && !on(9))) {
        return 15;
    }
    // Areas are whole pages, so one byte a page stands for all of them.
    let setting = status >> 2 & 31;
    let protected = |(first, size): (usize, usize)| {
        (first..first + size)
            .step_by(256)
            .any(|byte| protects(setting, byte))
    };
    if aim(bytes).is_some_and(protected) {
        16
    } else {
        0
    }
}

/// The output of a transaction that is carried out.
pub fn output(regs: Regs, array: &[u8], bytes: &[u8]) -> Vec<u8> {
    let shown = |place: usize| match (bytes[0], place) {
        (0x05, 1..) => regs.status as u8,
        (0x35, 1..) => (regs.status >> 8) as u8,
        (0x03, 4..) => array[(address(bytes) + place - 4) % SIZE],
        (0x0B, 5..) => array[(address(bytes) + place - 5) % SIZE],
        (0xAB, 4..) => 0x14,
        (0x90, 4..) if (usize::from(bytes[3]) + place).is_multiple_of(2) => 0xF8,
        (0x90, 4..) => 0x14,
        (0x9F, 1) => 0xF8,
        (0x9F, 2) => 0x32,
        (0x9F, 3) => 0x15,
        _ => 0xFF,
    };
    (0..bytes.len()).map(shown).collect()
}

/// The registers after a transaction that is carried out.
pub fn registers(regs: Regs, bytes: &[u8]) -> Regs {
    let Regs { status, awake } = regs;
    let word = |status| Regs { status, awake };
    let byte = |k: usize| u32::from(bytes[k]);
    match (bytes[0], bytes.len()) {
        (0x06, _) => word(status | 2),
        (0x04, _) => word(status & !2),
        (0x01, 2) => word(status & 0x0302 | byte(1) & 0xFC | 1),
        (0x01, _) => word(status & 0x0002 | byte(1) & 0xFC | (byte(2) & 3) << 8 | 1),
        (0x02 | 0x20 | 0x52 | 0xD8 | 0xC7 | 0x60, _) => word(status | 1),
        (0xB9, _) => Regs { status, awake: 0 },
        (0xAB, _) => Regs { status, awake: 1 },
        _ => regs,
    }
}

pub fn meter(mut meter: Meter, verdict: u32, bytes: &[u8]) -> Meter {
    match (verdict, bytes.first()) {
        (0, Some(0x02)) => meter.programs += 1,
        (0, Some(0x20 | 0x52 | 0xD8 | 0xC7 | 0x60)) => meter.erases += 1,
        (0, Some(0x01)) => meter.register_writes += 1,
        (0, _) => {}
        _ => meter.ignored += 1,
    }
    meter
}

/// What a transaction that is carried out does to the array.
pub fn change(array: &mut [u8], bytes: &[u8]) {
    let Some((first, size)) = aim(bytes) else {
        return;
    };
    if bytes[0] != 0x02 {
        array[first..first + size].fill(0xFF);
        return;
    }
    let mut sent = [None; 256];
    for (k, &data) in bytes[4..].iter().enumerate() {
        sent[(address(bytes) + k) % 256] = Some(data);
    }
    for (k, data) in sent.into_iter().enumerate() {
        array[first + k] &= data.unwrap_or(0xFF);
    }
}
