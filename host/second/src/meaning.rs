//! What a job means, said without a tape or a chip.
//!
//! This is what a replayed tape is held against, so it knows nothing of pages,
//! commands or BUSY: an erase makes its unit FF, a lay makes each byte old AND
//! payload, a guard sets its setting. Protection plays no part either; an
//! accepted job never meets it.

use crate::geometry::CHIP;
use crate::job::{self, Step};
use crate::{PART, Regs};

/// The job's meaning on the array. A job that is turned away, or an array that
/// is not the chip's, is left as it was.
pub fn meaning(setting: u32, job: &[u8], payload: &[u8], array: &mut [u8]) {
    if array.len() != CHIP as usize {
        return;
    }
    for step in steps(setting, job, payload) {
        match step {
            Step::Erase { unit, address } => erase(unit.size() as usize, address as usize, array),
            Step::Lay(lay) => {
                for k in 0..lay.length as usize {
                    array[lay.address as usize + k] &= payload[lay.offset as usize + k];
                }
            }
            Step::Guard { .. } => {}
        }
    }
}

/// The job's meaning on the registers, from awake, idle and unlocked ones that
/// hold the start setting. A job of no steps, or one that is turned away,
/// leaves them as they were, WEL too.
#[must_use]
pub fn meaning_on_registers(setting: u32, job: &[u8], payload: &[u8], regs: Regs) -> Regs {
    const WEL: u32 = 1 << 1;
    const GUARDED: u32 = 0b11_1111_1100;
    steps(setting, job, payload)
        .into_iter()
        .fold(regs, |regs, step| {
            let kept = regs.status & !WEL;
            let status = match step {
                Step::Guard { setting } => kept & !GUARDED | u32::from(setting) << 2,
                _ => kept,
            };
            Regs { status, ..regs }
        })
}

/// The steps of an accepted job, none of any other.
fn steps(setting: u32, job: &[u8], payload: &[u8]) -> Vec<Step> {
    job::accepted(PART, setting, job, payload).unwrap_or_default()
}

/// The unit of `size` bytes that holds `address` becomes FF.
fn erase(size: usize, address: usize, array: &mut [u8]) {
    if let Some(unit) = array.chunks_mut(size).nth(address / size) {
        unit.fill(0xFF);
    }
}
