//! `tunebriar flash`: an image onto a board, at the least cost.

use crate::bench::Bench;
use crate::bill::prices::Prices;
use crate::cut::{Job, cut};
use crate::error::{Error, shown};
use crate::files;
use crate::numbers::{grouped, number};
use crate::pool::plays::Came;
use crate::pool::{Asked, boards, months};
use crate::told::Told;
use crate::translate::{Translated, translated};
use crate::{quote, report};
use clap::Args;
use rusqlite::Connection;
use std::path::PathBuf;
use tunebriar::{Bill, Meter, SIZE};

/// How it is called.
#[derive(Debug, Args)]
#[command(
    after_help = "Sectors that hold the image already are left alone, those that only need \
                        bits cleared are programmed, and the others are erased first; what lies \
                        beside the image in such a sector is written back. The image is cut into \
                        jobs; each is quoted, translated and played, and the array is compared \
                        with the image at the end. All of it is in the book, or nothing."
)]
pub struct Flash {
    /// The board
    board: String,
    /// The image, of any size that fits
    image: PathBuf,
    /// Where on the chip the image begins
    #[arg(long, value_name = "ADDRESS", default_value = "0", value_parser = number)]
    at: u32,
    /// Tell what it would cost, and keep nothing
    #[arg(long)]
    dry_run: bool,
}

impl Flash {
    /// Brings the image onto the board.
    ///
    /// # Errors
    ///
    /// An image that does not fit; a protected byte; a board that is not
    /// ready; files; the pool.
    pub fn run(&self, pool: &Asked) -> Result<Told, Error> {
        let image = files::read_up_to(&self.image, SIZE)?;
        let at = self.at as usize;
        if image.is_empty() {
            return Err(Error::file(&self.image, "there is no byte in it"));
        }
        if at + image.len() > SIZE {
            let words = format_args!("leads off the chip from 0x{at:06X}, which has {SIZE} bytes");
            return Err(Error::file(&self.image, words));
        }
        let mut pool = pool.open()?;
        match self.dry_run {
            true => pool.read(|book| self.flashed(book, "", &image)),
            false => pool.write(|book, now| self.flashed(book, now, &image)),
        }
    }

    fn flashed(&self, book: &Connection, now: &str, image: &[u8]) -> Result<Told, Error> {
        let mut bench = Bench::new(book, now)?;
        bench.take(boards::find(book, &self.board)?)?;
        let first = bench.next();
        let mut wanted = bench.chip().array().to_vec();
        wanted[self.at as usize..][..image.len()].copy_from_slice(image);
        let jobs = cut(bench.chip().array(), &wanted);
        let mut total = Bill::default();
        for (place, job) in jobs.iter().enumerate() {
            let bill = self.job(&mut bench, place, jobs.len(), job)?;
            total.programs += bill.programs;
            total.erases += bill.erases;
            total.tape += bill.tape;
        }
        assert!(bench.chip().array() == wanted, "a job means what it says");
        if !self.dry_run && !jobs.is_empty() {
            bench.keep()?;
        }
        let prices = months::last(book)?;
        let prices = prices.name.is_some().then(|| prices.prices()).transpose()?;
        self.told(first..bench.next(), jobs.len(), &total, prices.as_ref())
    }

    /// Quotes, translates and plays one job.
    fn job(&self, bench: &mut Bench, place: usize, all: usize, job: &Job) -> Result<Bill, Error> {
        let setting = bench.chip().state.registers.setting();
        let Translated { bill, tape } =
            translated(setting, &job.records, &job.payload).map_err(|refusal| {
                let at = job.address(refusal.index());
                let (number, words) = (refusal.number(), refusal.words());
                Error::denied(format_args!(
                    "board {}: at 0x{at:06X}: refused {number}: {words}",
                    self.board
                ))
            })?;
        let name = format!("flash {} {} of {all}", shown(&self.image), place + 1);
        let came = match self.dry_run {
            true => bench.chip().play(&tape),
            false => bench.play(&name, &tape)?.1,
        };
        self.as_quoted(&came, &bill)?;
        Ok(bill)
    }

    /// A chip that is not ready ignores some of it, or refuses it all.
    fn as_quoted(&self, came: &Came, bill: &Bill) -> Result<(), Error> {
        let about = format!("board {}", self.board);
        let outcome = match came {
            Ok(outcome) => outcome,
            Err(refusal) => return Err(Error::refused(about, *refusal)),
        };
        let quoted = Meter {
            programs: bill.programs,
            erases: bill.erases,
            register_writes: bill.register_writes,
            ignored: 0,
        };
        match outcome.tally.ignored.first() {
            None => {
                assert!(outcome.rise == quoted, "the bill beforehand is the bill");
                Ok(())
            }
            Some(first) => Err(Error::denied(format_args!(
                "{about}: not ready: it would be ignored for verdict {}",
                report::verdict_words(first.verdict)
            ))),
        }
    }

    fn told(
        &self,
        plays: std::ops::Range<i64>,
        jobs: usize,
        total: &Bill,
        prices: Option<&Prices>,
    ) -> Result<Told, Error> {
        let mut told = quote::told(total, prices)?;
        let (image, board) = (shown(&self.image), &self.board);
        let done = match (jobs, self.dry_run) {
            (0, _) => format!("{board} holds {image} already\n"),
            (_, true) => format!("{board} would hold {image} after {} jobs\n", grouped(jobs)),
            (1, false) => format!("{board} holds {image}: 1 job, play {}\n", plays.start),
            (_, false) => format!(
                "{board} holds {image}: {} jobs, plays {} to {}\n",
                grouped(jobs),
                plays.start,
                plays.end - 1
            ),
        };
        told.text.push_str(&done);
        told.json["jobs"] = jobs.into();
        told.json["plays"] = plays.collect::<Vec<i64>>().into();
        Ok(told)
    }
}
