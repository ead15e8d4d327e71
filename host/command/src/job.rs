//! `tunebriar job`: a text into job and payload, and back.

use crate::error::{Error, shown};
use crate::files;
use crate::job_back;
use crate::job_text::{self, LARGEST_JOB, LARGEST_PAYLOAD, RECORD};
use crate::numbers::grouped;
use crate::output::Outputs;
use crate::told::Told;
use clap::Args;
use serde_json::json;
use std::path::{Path, PathBuf};

/// How it is called.
#[derive(Debug, Args)]
#[command(after_help = "\
Each line of TEXT is a step:
  erase 4k 0x1000               also 32k, 64k; 'erase all'
  lay 0x100 hex 11 22 33        bytes as they stand
  lay 0x1fe00 from firmware.bin the whole file, cut into records of 4,096
  lay 0x200 from a.bin at 16 for 32
  payload from a.payload        before all lays: a payload to take spans of
  lay 0x300 span 16 32          its 32 bytes from place 16
  guard 17                      or by area: none, all, 'top 64k', 'bottom 4k'
Blank lines and what follows a # say nothing; a line that ends in \\ goes on; a
name with blanks stands in quotes. Files are looked for in TEXT's folder.")]
pub struct Job {
    /// The steps as text
    text: PathBuf,
    /// The job's records
    job: PathBuf,
    /// The job's payload
    payload: PathBuf,
    /// Write TEXT from JOB and PAYLOAD, so that it makes them again
    #[arg(long)]
    back: bool,
    /// Replace files that are there
    #[arg(long)]
    force: bool,
}

impl Job {
    /// Writes job and payload, or the text.
    ///
    /// # Errors
    ///
    /// Refusals 20 and 22 to 24; files.
    pub fn run(&self) -> Result<Told, Error> {
        match self.back {
            true => self.backward(),
            false => self.forward(),
        }
    }

    fn forward(&self) -> Result<Told, Error> {
        let job = job_text::read(&self.text)?;
        let (records, bytes) = (job.records.len() / RECORD, job.payload.len());
        let mut outputs = Outputs::new(self.force);
        outputs.lay(&self.job, job.records)?;
        outputs.lay(&self.payload, job.payload)?;
        let data = outputs.commit()?;
        let text = format!(
            "{}: {} records\n{}: {} bytes\n",
            shown(&self.job),
            grouped(records),
            shown(&self.payload),
            grouped(bytes)
        );
        let json = json!({ "records": records, "payload": bytes });
        Ok(Told::new(text, json).with_data(data))
    }

    fn backward(&self) -> Result<Told, Error> {
        let job = job_text::Job {
            records: files::read_up_to(&self.job, LARGEST_JOB)?,
            payload: files::read_up_to(&self.payload, LARGEST_PAYLOAD)?,
        };
        let steps = job.records.len() / RECORD;
        let text = job_back::text(&self.job, &job, &called(&self.text, &self.payload))?;
        let mut outputs = Outputs::new(self.force);
        outputs.lay(&self.text, text)?;
        let data = outputs.commit()?;
        let text = format!("{}: {} steps\n", shown(&self.text), grouped(steps));
        Ok(Told::new(text, json!({ "steps": steps })).with_data(data))
    }
}

/// The name by which a text calls a file: short where they share a folder.
fn called(text: &Path, file: &Path) -> String {
    let name = match (text.parent() == file.parent(), file.file_name()) {
        (true, Some(name)) => name.into(),
        _ => std::path::absolute(file).unwrap_or_else(|_| file.to_path_buf()),
    };
    name.display().to_string()
}
