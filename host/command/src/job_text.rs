//! A job from its text: lines into records and payload.

use crate::areas;
use crate::chip::PART;
use crate::error::{Error, shown};
use crate::files;
use crate::lines::lines;
use crate::numbers::{hex, number};
use std::path::{Path, PathBuf};
use tunebriar::{Refusal, Step, Unit, quote};

/// A job's records and its payload.
#[derive(Debug, Default, PartialEq, Eq)]
pub struct Job {
    /// Records of 16 bytes.
    pub records: Vec<u8>,
    /// What its lays are taken from.
    pub payload: Vec<u8>,
}

/// Bytes of a job's record.
pub const RECORD: usize = 16;
/// The most bytes of a payload.
pub const LARGEST_PAYLOAD: usize = 65_536;
/// The most bytes of a job: 64 records.
pub const LARGEST_JOB: usize = 64 * RECORD;
/// The longest lay of one record.
const LONGEST_LAY: u64 = 4_096;

/// The job that a text says. Files are looked for in the text's own folder.
///
/// # Errors
///
/// Refusals 20 and 22 to 24, with the line; words for what is no line of a job;
/// files.
pub fn read(path: &Path) -> Result<Job, Error> {
    let mut job = Job::default();
    for (line, words) in lines(path, &files::text(path)?)? {
        let wrong = |words| Error::line(path, line, words);
        let words: Vec<&str> = words.iter().map(String::as_str).collect();
        for step in steps(path, line, &words, &mut job)? {
            let record = step.map_err(wrong)?.record();
            checked(&record, &job.payload).map_err(|refusal| {
                let place = format!("line {line}, record {}", job.records.len() / RECORD);
                Error::refused_at(path, &place, refusal)
            })?;
            job.records.extend(record);
        }
    }
    whole(&job).map_err(|refusal| Error::refused(shown(path), refusal))?;
    Ok(job)
}

/// The library's word on one record alone, where nothing is protected: it
/// refuses it for its form, its span or its payload.
pub(crate) fn checked(record: &[u8], payload: &[u8]) -> Result<(), Refusal> {
    match quote(PART, 0, record, payload) {
        // The whole payload is judged once, when all of it is there.
        Err(refusal) if refusal.number() != 20 => Err(refusal),
        _ => Ok(()),
    }
}

/// Refusal 20, if the job is too long or its payload too large.
pub(crate) fn whole(job: &Job) -> Result<(), Refusal> {
    match quote(PART, 0, &job.records, &job.payload) {
        Err(refusal) if refusal.number() == 20 => Err(refusal),
        _ => Ok(()),
    }
}

type Steps = Vec<Result<Step, String>>;

fn steps(path: &Path, line: usize, words: &[&str], job: &mut Job) -> Result<Steps, Error> {
    let wrong = |words| Error::line(path, line, words);
    Ok(match words {
        ["erase", rest @ ..] => vec![erase(rest)],
        ["guard", rest @ ..] if !rest.is_empty() => vec![guard(&rest.join(" "))],
        ["lay", address, "span", offset, length] => vec![span(address, offset, length)],
        ["lay", address, rest @ ..] => {
            let address = number(address).map_err(wrong)?;
            let bytes = bytes(path, line, rest)?;
            lays(address, &bytes, &mut job.payload)
        }
        ["payload", "from", name] if job.payload.is_empty() => {
            job.payload = files::read_up_to(&beside(path, name), LARGEST_PAYLOAD)
                .map_err(|error| error.within(format_args!("{}: line {line}", shown(path))))?;
            Vec::new()
        }
        ["payload", ..] => {
            return Err(wrong(
                "'payload from FILE' comes once, before any lay".into(),
            ));
        }
        _ => return Err(wrong("this is no erase, lay or guard".into())),
    })
}

fn erase(words: &[&str]) -> Result<Step, String> {
    let unit = match words {
        ["4k" | "4K", _] => Unit::Sector,
        ["32k" | "32K", _] => Unit::HalfBlock,
        ["64k" | "64K", _] => Unit::Block,
        ["all"] => Unit::All,
        _ => return Err("an erase is 4k, 32k or 64k with an address, or all".into()),
    };
    let address = words.get(1).map_or(Ok(0), |word| number(word))?;
    Ok(Step::Erase { unit, address })
}

fn guard(words: &str) -> Result<Step, String> {
    let setting = areas::setting(words)?;
    Ok(Step::Guard { setting })
}

fn span(address: &str, offset: &str, length: &str) -> Result<Step, String> {
    Ok(Step::Lay {
        address: number(address)?,
        length: number(length)?,
        offset: number(offset)?,
    })
}

fn bytes(path: &Path, line: usize, words: &[&str]) -> Result<Vec<u8>, Error> {
    let wrong = |words: String| Error::line(path, line, words);
    let here = |error: Error| error.within(format_args!("{}: line {line}", shown(path)));
    match words {
        ["hex", rest @ ..] => hex(rest.iter().copied()).map_err(wrong),
        // What is too much for any payload is refused as 20, however much more there is.
        ["from", name] => files::read_up_to(&beside(path, name), LARGEST_PAYLOAD).map_err(here),
        ["from", name, "at", at, "for", length] => {
            let (at, length) = (number(at).map_err(wrong)?, number(length).map_err(wrong)?);
            let length = (length as usize).min(LARGEST_PAYLOAD + 1);
            files::part(&beside(path, name), at.into(), length).map_err(here)
        }
        _ => Err(wrong(
            "a lay goes on with 'hex BYTES', 'from FILE' or 'from FILE at OFFSET for LENGTH'"
                .into(),
        )),
    }
}

fn beside(path: &Path, name: &str) -> PathBuf {
    path.parent().unwrap_or(Path::new("")).join(name)
}

/// A lay's records. What is too long for one record is cut at multiples of
/// 4,096, which no page straddles, so that cutting costs no program.
fn lays(address: u32, bytes: &[u8], payload: &mut Vec<u8>) -> Steps {
    let mut steps = Steps::new();
    let (mut at, mut rest) = (u64::from(address), bytes);
    loop {
        let most = match rest.len() as u64 > LONGEST_LAY {
            true => LONGEST_LAY - at % LONGEST_LAY,
            false => LONGEST_LAY,
        };
        let (piece, after) = rest.split_at(rest.len().min(most as usize));
        steps.push(lay(at, piece.len(), payload.len()));
        payload.extend(piece);
        (at, rest) = (at + piece.len() as u64, after);
        if rest.is_empty() {
            return steps;
        }
    }
}

fn lay(address: u64, length: usize, offset: usize) -> Result<Step, String> {
    let narrow = |number: u64| u32::try_from(number).map_err(|_| "this leads off the chip");
    Ok(Step::Lay {
        address: narrow(address)?,
        length: narrow(length as u64)?,
        offset: narrow(offset as u64)?,
    })
}
