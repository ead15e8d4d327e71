//! A month's plays as a ledger, which plays them again where its boards are.

use crate::bill::csv::tame;
use crate::clock;
use crate::error::{Error, shown};
use crate::numbers::grouped;
use crate::output::Outputs;
use crate::pool::{Asked, bills, plays};
use crate::sha256::{hex, sha256};
use crate::told::Told;
use clap::Args;
use csv::WriterBuilder;
use rusqlite::Connection;
use serde_json::json;
use std::fs;
use std::path::{Path, PathBuf};

/// How it is called.
#[derive(Debug, Args)]
pub struct Export {
    /// The month, as 2026-11
    #[arg(value_parser = clock::month)]
    month: String,
    /// The ledger to write
    ledger: PathBuf,
    /// A folder for the tapes, each under its SHA-256
    #[arg(long, value_name = "FOLDER")]
    tapes: Option<PathBuf>,
    /// Replace files that are there
    #[arg(long)]
    force: bool,
}

impl Export {
    /// Writes the ledger and the tapes.
    ///
    /// # Errors
    ///
    /// A month that was never opened; files; the pool.
    pub fn run(&self, pool: &Asked) -> Result<Told, Error> {
        let mut outputs = Outputs::new(self.force);
        outputs.check(&self.ledger)?;
        let (text, plays) = pool.open()?.read(|book| self.text(book))?;
        outputs.lay(&self.ledger, text)?;
        let data = outputs.commit()?;
        let text = format!("{}: {} plays\n", shown(&self.ledger), grouped(plays));
        Ok(Told::new(text, json!({ "month": self.month, "plays": plays })).with_data(data))
    }

    fn text(&self, book: &Connection) -> Result<(Vec<u8>, usize), Error> {
        let bill = bills::bill(book, &self.month)?;
        let mut plays: Vec<_> = bill
            .departments
            .iter()
            .flat_map(|one| one.plays.iter().map(|play| (&one.name, play)))
            .collect();
        plays.sort_by_key(|(_, play)| play.number);
        let mut writer = WriterBuilder::new().from_writer(Vec::new());
        let header = ["department", "board", "tape", "sha256", "number", "played"];
        writer.write_record(header).map_err(Error::wrong)?;
        for (department, play) in &plays {
            let tape = match &self.tapes {
                Some(folder) => self.tape(book, folder, play.number, &play.sha256)?,
                None => play.tape.clone(),
            };
            let fields = [
                tame(department),
                tame(&play.board),
                tame(&tape),
                play.sha256.clone(),
                play.number.to_string(),
                play.when.clone(),
            ];
            writer.write_record(fields).map_err(Error::wrong)?;
        }
        let text = writer
            .into_inner()
            .map_err(|error| Error::wrong(error.error()))?;
        Ok((text, plays.len()))
    }

    /// Writes a tape into the folder, and gives its name for the ledger.
    fn tape(
        &self,
        book: &Connection,
        folder: &Path,
        number: u64,
        digest: &str,
    ) -> Result<String, Error> {
        let words = |error: &std::io::Error| crate::files::plain(error);
        fs::create_dir_all(folder)
            .map_err(|error| Error::file(folder, format_args!("no folder: {}", words(&error))))?;
        let path = folder.join(format!("{digest}.tape"));
        let same = fs::read(&path).is_ok_and(|bytes| hex(&sha256(&bytes)) == digest);
        if !same {
            let play = plays::find(book, number as i64)?;
            let mut outputs = Outputs::new(self.force);
            outputs.lay(&path, plays::tape(book, play.tape)?)?;
            outputs.commit()?;
        }
        Ok(self.called(&path).display().to_string())
    }

    /// A tape's name as the ledger calls it: from the ledger's folder, where it
    /// lies under it.
    fn called(&self, path: &Path) -> PathBuf {
        let ledger = match self.ledger.parent() {
            Some(folder) if !folder.as_os_str().is_empty() => folder,
            _ => Path::new("."),
        };
        let path = fs::canonicalize(path).unwrap_or_else(|_| path.to_path_buf());
        let under = fs::canonicalize(ledger).ok();
        let under = under.and_then(|folder| Some(path.strip_prefix(folder).ok()?.to_path_buf()));
        under.unwrap_or(path)
    }
}
