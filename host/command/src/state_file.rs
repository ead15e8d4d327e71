//! The state file: registers and meter, as text that people can read.
//!
//! ```text
//! # tunebriar state: registers and meter
//! chip = FM25Q16
//! status = 0x0044
//! awake = yes
//! programs = 12
//! erases = 3
//! register-writes = 1
//! ignored = 0
//! ```

use crate::chip::NAME;
use crate::error::Error;
use crate::fields::Fields;
use crate::numbers::number;
use std::path::Path;
use tunebriar::{Meter, Registers, State};

const KEYS: [&str; 7] = [
    "chip",
    "status",
    "awake",
    "programs",
    "erases",
    "register-writes",
    "ignored",
];

/// The state that a file holds. Whether its registers are well formed is for
/// the library to say.
///
/// # Errors
///
/// Where the file cannot be read or understood.
pub fn read(path: &Path) -> Result<State, Error> {
    let fields = Fields::read(path, &KEYS)?;
    fields.get("chip", known)?;
    Ok(State {
        registers: Registers {
            status: fields.get("status", status)?,
            awake: fields.get("awake", awake)?,
        },
        meter: Meter {
            programs: fields.get("programs", number)?,
            erases: fields.get("erases", number)?,
            register_writes: fields.get("register-writes", number)?,
            ignored: fields.get("ignored", number)?,
        },
    })
}

fn known(word: &str) -> Result<(), String> {
    match word {
        NAME => Ok(()),
        _ => Err(format!("the chip '{word}' is not known; there is {NAME}")),
    }
}

fn status(word: &str) -> Result<u16, String> {
    u16::try_from(number(word)?).map_err(|_| format!("a status of 16 bits is not {word}"))
}

fn awake(word: &str) -> Result<bool, String> {
    match word {
        "yes" => Ok(true),
        "no" => Ok(false),
        _ => Err(format!("awake is yes or no, not '{word}'")),
    }
}

/// A state as text.
#[must_use]
pub fn text(state: State) -> String {
    let State { registers, meter } = state;
    format!(
        "# tunebriar state: registers and meter\n\
         chip = {NAME}\n\
         status = 0x{:04X}\n\
         awake = {}\n\
         programs = {}\n\
         erases = {}\n\
         register-writes = {}\n\
         ignored = {}\n",
        registers.status,
        if registers.awake { "yes" } else { "no" },
        meter.programs,
        meter.erases,
        meter.register_writes,
        meter.ignored,
    )
}
