//! `tunebriar explain`: what was ignored, record by record.

use crate::clock;
use crate::error::Error;
use crate::numbers::grouped;
use crate::pool::boards::{self, Board};
use crate::pool::plays::{self, Play};
use crate::pool::{Asked, bills, months};
use crate::report;
use crate::told::Told;
use crate::words;
use clap::{ArgGroup, Args};
use rusqlite::Connection;
use serde_json::{Value, json};
use std::fmt::Write;
use tunebriar::Reason;

/// How it is called.
#[derive(Debug, Args)]
#[command(group = ArgGroup::new("whose").required(true))]
pub struct Explain {
    /// A play, by its number in the book
    #[arg(long, group = "whose", value_name = "NUMBER")]
    play: Option<i64>,
    /// Every play of a board
    #[arg(long, group = "whose")]
    board: Option<String>,
    /// Every play of a department
    #[arg(long, group = "whose")]
    department: Option<String>,
    /// Of this month only
    #[arg(long, value_parser = clock::month, conflicts_with = "play")]
    month: Option<String>,
}

impl Explain {
    /// Tells every ignored record.
    ///
    /// # Errors
    ///
    /// A play, board, department or month that is not there; the pool.
    pub fn run(&self, pool: &Asked) -> Result<Told, Error> {
        pool.open()?.read(|book| {
            let (mut text, mut values, mut all) = (String::new(), Vec::new(), 0);
            for (board, play) in self.plays(book)? {
                all += one(book, &board, &play, &mut text, &mut values)?;
            }
            let _ = writeln!(text, "{} ignored", grouped(all));
            Ok(Told::new(text, Value::from(values)))
        })
    }

    fn plays(&self, book: &Connection) -> Result<Vec<(Board, Play)>, Error> {
        let boards = match (&self.board, &self.department) {
            (Some(board), _) => vec![boards::find(book, board)?],
            (_, Some(department)) => bills::boards_of(book, department)?,
            _ => boards::all(book)?,
        };
        let owner = |id: i64| boards.iter().find(|board| board.id == id).cloned();
        if let Some(number) = self.play {
            let play = plays::find(book, number)?;
            return Ok(owner(play.board)
                .map(|board| (board, play))
                .into_iter()
                .collect());
        }
        let month = self
            .month
            .as_deref()
            .map(|name| months::find(book, name))
            .transpose()?;
        let last = months::last(book)?.id;
        let months = month.map_or(1..=last, |month| month.id..=month.id);
        let mut all = Vec::new();
        for month in months {
            for board in &boards {
                let plays = plays::of(book, month, Some(board.id))?;
                all.extend(plays.into_iter().map(|play| (board.clone(), play)));
            }
        }
        all.sort_by_key(|(_, play)| play.number);
        Ok(all)
    }
}

/// One play's ignored records; how many there were.
fn one(
    book: &Connection,
    board: &Board,
    play: &Play,
    text: &mut String,
    values: &mut Vec<Value>,
) -> Result<usize, Error> {
    let ignored = plays::ignored(book, play.number)?;
    let refusal = bills::refusal(play);
    if ignored.is_empty() && refusal.is_none() {
        return Ok(0);
    }
    let (number, name) = (play.number, &play.name);
    let (board, department) = (&board.name, &board.department);
    let _ = writeln!(text, "play {number}, {name} on {board} of {department}:");
    if let Some(refusal) = &refusal {
        let _ = writeln!(text, "  {refusal}; nothing was played");
        values.push(json!({
            "play": number,
            "board": board,
            "department": department,
            "tape": name,
            "refusal": play.refusal.map(|(number, index)| {
                report::refusal_json(tunebriar::Refusal::new(number, index))
            }),
        }));
    }
    let tape = plays::tape(book, play.tape)?;
    for one in &ignored {
        let _ = writeln!(
            text,
            "  record {:04}  {}",
            one.record,
            report::ignored(&tape, one)
        );
        values.push(json!({
            "play": number,
            "board": board,
            "department": department,
            "tape": name,
            "record": one.record,
            "command": one.command,
            "address": words::address(report::bytes(&tape, one.record)),
            "verdict": one.verdict,
            "words": Reason::of(one.verdict).map_or("", words::reason),
        }));
    }
    Ok(ignored.len())
}
