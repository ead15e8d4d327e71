//! `tunebriar translate`: a job and its payload become a tape.

use crate::chip::{Chip, PART};
use crate::error::{Error, shown};
use crate::files;
use crate::job_text::{LARGEST_JOB, LARGEST_PAYLOAD};
use crate::numbers::grouped;
use crate::output::Outputs;
use crate::pool::{Asked, boards, sectors};
use crate::report::verdict_words;
use crate::told::Told;
use crate::{areas, state_file};
use clap::Args;
use serde_json::json;
use std::path::{Path, PathBuf};
use tunebriar::{Bill, RECORD, State, quote, translate};

/// How it is called.
#[derive(Debug, Args)]
pub struct Translate {
    /// The job's records
    job: PathBuf,
    /// The job's payload
    payload: PathBuf,
    /// The tape to write
    tape: PathBuf,
    #[command(flatten)]
    start: Start,
    /// Replace a file that is there
    #[arg(long)]
    force: bool,
}

/// Where a job starts.
#[derive(Debug, Args)]
pub struct Start {
    /// The protection at the start: 0 to 31, none, all, or an area as 'top
    /// 64k'; none where nothing is said
    #[arg(long, value_name = "S", value_parser = areas::setting)]
    #[arg(conflicts_with_all = ["board", "state"])]
    setting: Option<u8>,
    /// Start where a board of the pool is; a start at which the chip would
    /// ignore some of the job is told
    #[arg(long, conflicts_with = "state")]
    board: Option<String>,
    /// The same for a state that was exported
    #[arg(long, value_name = "FILE")]
    state: Option<PathBuf>,
}

/// A job with its payload, quoted and translated.
pub struct Translated {
    /// The bill beforehand.
    pub bill: Bill,
    /// The tape.
    pub tape: Vec<u8>,
}

impl Translate {
    /// Writes the tape.
    ///
    /// # Errors
    ///
    /// Refusals 20 to 25; a start at which the job would not be done; files.
    pub fn run(&self, pool: &Asked) -> Result<Told, Error> {
        let Translated { tape, .. } = self.start.translated(pool, &self.job, &self.payload)?;
        let records = tape.len() / RECORD;
        let mut outputs = Outputs::new(self.force);
        outputs.lay(&self.tape, tape)?;
        let data = outputs.commit()?;
        let text = format!("{}: {} records\n", shown(&self.tape), grouped(records));
        Ok(Told::new(text, json!({ "records": records })).with_data(data))
    }
}

impl Start {
    /// Quotes and translates a job from two files, from this start.
    ///
    /// # Errors
    ///
    /// Refusals 20 to 25; a start at which the job would not be done; files.
    pub fn translated(
        &self,
        pool: &Asked,
        job: &Path,
        payload: &Path,
    ) -> Result<Translated, Error> {
        let records = files::read_up_to(job, LARGEST_JOB)?;
        let payload = files::read_up_to(payload, LARGEST_PAYLOAD)?;
        let chip = self.chip(pool)?;
        let setting = match &chip {
            Some((_, chip)) => chip.state.registers.setting(),
            None => self.setting.unwrap_or(0),
        };
        let done = translated(setting, &records, &payload);
        let done = done.map_err(|refusal| Error::refused(shown(job), refusal));
        // A start that is no start is told before what is wrong with the job.
        if let Some((about, mut chip)) = chip {
            ready(
                &about,
                &mut chip,
                done.as_ref().map_or(&[], |done| &done.tape),
            )?;
        }
        done
    }

    /// The chip that the call names, and how it is called.
    fn chip(&self, pool: &Asked) -> Result<Option<(String, Chip)>, Error> {
        if let Some(path) = &self.state {
            let chip = Chip::erased(state_file::read(path)?);
            return Ok(Some((shown(path), chip)));
        }
        let Some(name) = &self.board else {
            return Ok(None);
        };
        let mut chip = Chip::erased(State::default());
        pool.open()?.read(|book| {
            let board = boards::find(book, name)?;
            chip.become_other(board.state);
            sectors::load(book, board.id, |place, bytes| chip.fill(place, bytes))
        })?;
        Ok(Some((format!("board {name}"), chip)))
    }
}

/// A job quoted and translated from a setting.
///
/// # Errors
///
/// Refusals 20 to 25.
pub fn translated(
    setting: u8,
    job: &[u8],
    payload: &[u8],
) -> Result<Translated, tunebriar::Refusal> {
    let bill = quote(PART, setting, job, payload)?;
    // 64 lays of 17 pages at the most: a tape that surely fits.
    let mut tape = vec![0; usize::try_from(bill.tape).unwrap_or_default()];
    translate(PART, setting, job, payload, &mut tape)?;
    Ok(Translated { bill, tape })
}

/// That a chip would do all of a tape. The library says so itself, by playing
/// it: a chip that is asleep, busy or locked ignores some of it, and one that
/// is malformed or has no room on its meter refuses it.
///
/// # Errors
///
/// The first record that would be ignored, or the refusal.
pub fn ready(about: &str, chip: &mut Chip, tape: &[u8]) -> Result<(), Error> {
    let outcome = chip
        .play(tape)
        .map_err(|refusal| Error::refused(about, refusal))?;
    let ignored = &outcome.tally.ignored;
    match ignored.first() {
        None => Ok(()),
        Some(first) => Err(Error::denied(format_args!(
            "{about}: not ready: {} of the {} records would be ignored, the first for verdict {}",
            grouped(ignored.len()),
            grouped(tape.len() / RECORD),
            verdict_words(first.verdict),
        ))),
    }
}
