//! A job back to text.

use crate::areas;
use crate::error::{Error, shown};
use crate::job_text::{Job, RECORD, checked, whole};
use crate::numbers::spaced;
use std::fmt::Write;
use std::path::Path;
use tunebriar::{Step, Unit};

/// The text of a job; `payload` is the name by which the text can call its
/// payload, where the lays are not simply one after the other in it.
///
/// # Errors
///
/// Refusals 20 and 22 to 24, with the record.
pub fn text(path: &Path, job: &Job, payload: &str) -> Result<String, Error> {
    whole(job).map_err(|refusal| Error::refused(shown(path), refusal))?;
    let mut steps = Vec::new();
    for (place, record) in job.records.chunks(RECORD).enumerate() {
        checked(record, &job.payload).map_err(|refusal| {
            let place = format!("record {place}");
            Error::refused_at(path, &place, refusal)
        })?;
        steps.push(decoded(record));
    }
    let inside = in_order(&steps, job.payload.len());
    let mut text = match inside {
        true => String::new(),
        false => format!("payload from \"{payload}\"\n"),
    };
    for step in steps {
        text.push_str(&said(step, inside.then_some(&job.payload)));
    }
    Ok(text)
}

/// A record that the library has found good.
fn decoded(record: &[u8]) -> Step {
    let word = |at: usize| u32::from_be_bytes(std::array::from_fn(|place| record[at + place]));
    let units = [Unit::Sector, Unit::HalfBlock, Unit::Block, Unit::All];
    match record[0] {
        1 => Step::Erase {
            unit: units[usize::from(record[1] & 3)],
            address: word(4),
        },
        2 => Step::Lay {
            address: word(4),
            length: word(8),
            offset: word(12),
        },
        _ => Step::Guard { setting: record[1] },
    }
}

/// Whether the lays take the whole payload, one after the other.
fn in_order(steps: &[Step], payload: usize) -> bool {
    let mut next = 0;
    for step in steps {
        if let Step::Lay { length, offset, .. } = *step {
            if u64::from(offset) != next {
                return false;
            }
            next += u64::from(length);
        }
    }
    next == payload as u64
}

fn said(step: Step, payload: Option<&Vec<u8>>) -> String {
    match (step, payload) {
        (
            Step::Erase {
                unit: Unit::All, ..
            },
            _,
        ) => "erase all\n".to_string(),
        (Step::Erase { unit, address }, _) => {
            let size = ["4k", "32k", "64k", ""][unit as usize];
            format!("erase {size} 0x{address:06x}\n")
        }
        (Step::Guard { setting }, _) => format!("guard {setting} # {}\n", areas::name(setting)),
        (
            Step::Lay {
                address,
                length,
                offset,
            },
            Some(payload),
        ) => {
            let span = offset as usize..(offset + length) as usize;
            hex_lay(address, &payload[span])
        }
        (
            Step::Lay {
                address,
                length,
                offset,
            },
            None,
        ) => format!("lay 0x{address:06x} span 0x{offset:x} {length}\n"),
    }
}

/// Sixteen bytes a line.
fn hex_lay(address: u32, bytes: &[u8]) -> String {
    let mut text = format!("lay 0x{address:06x} hex");
    if bytes.len() <= 16 {
        let _ = writeln!(text, " {}", spaced(bytes));
        return text;
    }
    for line in bytes.chunks(16) {
        let _ = write!(text, " \\\n  {}", spaced(line));
    }
    text.push('\n');
    text
}
