//! `tunebriar audit`: a month replayed, to show that the book says the same.

use crate::chip::Chip;
use crate::clock;
use crate::error::Error;
use crate::numbers::grouped;
use crate::pool::boards;
use crate::pool::months::{self, Month};
use crate::pool::plays::{self, Play};
use crate::pool::{Asked, Pool, sectors, whole};
use crate::progress;
use crate::sha256::sha256;
use crate::told::Told;
use clap::Args;
use indicatif::ProgressBar;
use rayon::prelude::*;
use rusqlite::Connection;
use serde_json::json;
use std::fmt::Write;
use tunebriar::{RECORD, State};

/// How it is called.
#[derive(Debug, Args)]
#[command(
    after_help = "Every board is taken as it was when the month began, its tapes are \
                        played again through the library, and every rise, ignored record, \
                        refusal and last array is held against the book. The exit status is 1 \
                        if something differs."
)]
pub struct Audit {
    /// The month, as 2026-11
    #[arg(value_parser = clock::month)]
    month: String,
}

/// What a board's audit came to.
#[derive(Clone, Default)]
struct Found {
    plays: usize,
    /// Those of them that were there when the audit began.
    known: usize,
    records: usize,
    differs: Vec<String>,
}

/// Where one board after the other is audited: a core's own.
struct Desk {
    pool: Pool,
    chip: Chip,
    closing: Chip,
}

/// What is audited, as one look at the book has it.
struct Task {
    month: i64,
    boards: Vec<(i64, String)>,
    /// The last play by then, and how many of the month there are.
    last: i64,
    plays: usize,
}

impl Audit {
    /// Replays the month.
    ///
    /// # Errors
    ///
    /// A month that was never opened; the pool.
    pub fn run(&self, asked: &Asked) -> Result<Told, Error> {
        let mut book_itself = Found::default();
        let differs = &mut book_itself.differs;
        let task = asked.open()?.read(|book| {
            whole::file(book, differs)?;
            let month = months::find(book, &self.month)?;
            whole::plays(book, differs)?;
            whole::bill(book, &self.month, differs);
            Task::new(book, month.id)
        })?;
        let bar = progress::bar(task.boards.len(), "boards");
        // Small parts, so that no core waits long for the others' last.
        let at_a_desk = (task.boards.len() / rayon::current_num_threads() / 8).clamp(1, 64);
        let found: Result<Vec<Vec<Found>>, Error> = task
            .boards
            .par_chunks(at_a_desk)
            .map(|boards| {
                let mut desk = Desk::new(asked)?;
                let boards = boards.iter();
                boards.map(|board| desk.board(&task, board, &bar)).collect()
            })
            .collect();
        bar.finish_and_clear();
        let mut found = found?.concat();
        let replayed: usize = found.iter().map(|one| one.known).sum();
        if replayed != task.plays {
            let (replayed, plays) = (grouped(replayed), grouped(task.plays));
            let words = format!("{replayed} plays could be replayed, and the month has {plays}");
            book_itself.differs.push(words);
        }
        found.insert(0, book_itself);
        Ok(self.told(task.boards.len(), &found))
    }

    fn told(&self, boards: usize, found: &[Found]) -> Told {
        let plays: usize = found.iter().map(|one| one.plays).sum();
        let records: usize = found.iter().map(|one| one.records).sum();
        let differs: Vec<&String> = found.iter().flat_map(|one| &one.differs).collect();
        let mut text: String = differs
            .iter()
            .fold(String::new(), |text, line| text + line + "\n");
        let says = match differs.len() {
            0 => "the book says the same".to_string(),
            count => format!("{} differences", grouped(count)),
        };
        let month = &self.month;
        let _ = writeln!(
            text,
            "{month}: {} boards, {} plays, {} records replayed: {says}",
            grouped(boards),
            grouped(plays),
            grouped(records)
        );
        let json = json!({
            "month": month, "boards": boards, "plays": plays, "records": records,
            "differences": differs,
        });
        let mut told = Told::new(text, json);
        told.refused = differs
            .first()
            .map(|_| Error::denied(format_args!("{month}: {says}")));
        told
    }
}

impl Task {
    fn new(book: &Connection, month: i64) -> Result<Task, Error> {
        let count = "SELECT count(*) FROM play WHERE month = ?1";
        // Also those that were played on, and yet are not there.
        let mut rows = book.prepare(
            "SELECT there.board, coalesce(name, 'board ' || there.board) FROM \
             (SELECT board FROM opening WHERE month = ?1 UNION \
             SELECT board FROM play WHERE month = ?1) AS there \
             LEFT JOIN board ON board.id = there.board ORDER BY name",
        )?;
        let boards = rows.query_map([month], |row| Ok((row.get(0)?, row.get(1)?)))?;
        Ok(Task {
            month,
            boards: boards.collect::<Result<_, _>>()?,
            last: plays::next(book)? - 1,
            plays: book.query_row(count, [month], |row| row.get(0))?,
        })
    }
}

impl Desk {
    fn new(asked: &Asked) -> Result<Desk, Error> {
        Ok(Desk {
            pool: asked.open()?,
            chip: Chip::erased(State::default()),
            closing: Chip::erased(State::default()),
        })
    }

    fn board(
        &mut self,
        task: &Task,
        (id, name): &(i64, String),
        bar: &ProgressBar,
    ) -> Result<Found, Error> {
        let mut found = Found::default();
        // A row that cannot be read is a difference; a pool that cannot, an error.
        if let Err(error) = self.replayed(task, *id, name, &mut found)? {
            found.differs.push(format!("{name}: {error}"));
        }
        bar.inc(1);
        Ok(found)
    }

    fn replayed(
        &mut self,
        task: &Task,
        id: i64,
        name: &str,
        found: &mut Found,
    ) -> Result<Result<(), Error>, Error> {
        let (chip, closing) = (&mut self.chip, &mut self.closing);
        let begun = self.pool.read(|book| {
            // Once more: it may have been closed since.
            let month = months::of_row(book, task.month)?;
            Ok(begun(book, &month, id, chip, closing))
        })?;
        let plays = match begun {
            Ok(plays) => plays,
            Err(error) => return Ok(Err(error)),
        };
        for play in &plays {
            let done = self.pool.read(|book| {
                months::of_row(book, task.month)?;
                Ok(replayed(book, chip, play, name, found))
            })?;
            if let Err(error) = done {
                return Ok(Err(error.within(format_args!("play {}", play.number))));
            }
            found.known += usize::from(play.number <= task.last);
        }
        if chip.state != closing.state {
            found
                .differs
                .push(format!("{name}: its last registers or meter"));
        }
        if chip.array() != closing.array() {
            found.differs.push(format!("{name}: its last array"));
        }
        Ok(Ok(()))
    }
}

/// A board as it was when a month began, its plays, and what it was at the end.
/// All at one moment; what the book has by then does not change any more.
fn begun(
    book: &Connection,
    month: &Month,
    board: i64,
    chip: &mut Chip,
    closing: &mut Chip,
) -> Result<Vec<Play>, Error> {
    let row = boards::of_row(book, board)?;
    boards::known(&row)?;
    chip.become_other(boards::opening(book, month.id, board)?);
    sectors::load_opening(book, board, month.id, |place, bytes| {
        chip.fill(place, bytes);
    })?;
    match month.closed {
        Some(_) => {
            closing.become_other(boards::opening(book, month.id + 1, board)?);
            sectors::load_opening(book, board, month.id + 1, |place, bytes| {
                closing.fill(place, bytes);
            })?;
        }
        // What it is, while the month has not ended.
        None => {
            closing.become_other(row.state);
            sectors::load(book, board, |place, bytes| closing.fill(place, bytes))?;
        }
    }
    plays::of(book, month.id, Some(board))
}

fn replayed(
    book: &Connection,
    chip: &mut Chip,
    play: &Play,
    board: &str,
    found: &mut Found,
) -> Result<(), Error> {
    let (digest, tape): ([u8; 32], Vec<u8>) = book
        .prepare_cached("SELECT sha256, bytes FROM tape WHERE id = ?1")?
        .query_row([play.tape], |row| Ok((row.get(0)?, row.get(1)?)))?;
    let ignored = plays::ignored(book, play.number)?;
    found.plays += 1;
    found.records += tape.len() / RECORD;
    let mut differs = |what: &str| {
        let (number, name) = (play.number, &play.name);
        found
            .differs
            .push(format!("{board}: play {number}, {name}: {what}"));
    };
    if sha256(&tape) != digest {
        differs("its tape is not the one that was played");
    }
    match (chip.play(&tape), play.refusal) {
        (Ok(outcome), None) => {
            if outcome.rise != play.rise {
                differs("what it raised");
            }
            if outcome.tally.ignored != ignored {
                differs("what was ignored");
            }
        }
        (Err(refusal), Some(kept)) if (refusal.number(), refusal.index()) == kept => {}
        _ => differs("whether it was refused"),
    }
    Ok(())
}

#[cfg(test)]
mod tests {
    use super::*;

    /// It is audited up to its end, and no further.
    #[test]
    fn a_month_may_close_while_it_is_audited() {
        let folder = std::env::temp_dir().join(format!("tunebriar-audit-{}", std::process::id()));
        std::fs::create_dir_all(&folder).expect("a folder");
        let (path, prices) = (folder.join("a.pool"), folder.join("prices"));
        let text = "currency = EUR\nprogram = 1\nerase = 1\nregister-write = 1\nignored = 0\n";
        std::fs::write(&prices, text).expect("written");
        let call = |words: &str| {
            let words = format!("tunebriar --pool {} {words}", path.display());
            let words: Vec<_> = words.split(' ').map(Into::into).collect();
            let ended = crate::call(&words);
            assert_eq!(ended.status, 0, "{ended:?}");
        };
        call("pool new");
        call("board add b --department d");
        call(&format!("month open 2026-11 --prices {}", prices.display()));
        call("transact b 06");
        let asked = Asked {
            path: path.clone(),
            wait: 5,
            now: None,
        };
        let mut pool = asked.open().expect("a pool");
        let task = pool.read(|book| Task::new(book, 1)).expect("a task");
        call("month close 2026-11");
        call("transact b 04");
        let mut desk = Desk::new(&asked).expect("a desk");
        let found = desk.board(&task, &task.boards[0], &ProgressBar::hidden());
        let found = found.expect("audited");
        assert_eq!((found.known, found.differs), (1, vec![]));
        std::fs::remove_dir_all(&folder).expect("removed");
    }
}
