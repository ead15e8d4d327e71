//! `tunebriar month`: months opened, closed and billed.

use crate::bill::prices::Prices;
use crate::bill::sums::Fault;
use crate::bill::{Bill, chart, csv, html, json as bill_json, table};
use crate::clock;
use crate::error::{Error, shown};
use crate::numbers::grouped;
use crate::output::Outputs;
use crate::pool::{Asked, bills, boards, months, seals, sound};
use crate::sha256::hex;
use crate::told::Told;
use clap::{Args, Subcommand};
use rusqlite::Connection;
use serde_json::{Value, json};
use std::fmt::Write;
use std::path::{Path, PathBuf};

/// How it is called.
#[derive(Debug, Subcommand)]
pub enum Month {
    /// Open a month, with its prices
    Open(Open),
    /// Close a month, once; what is played from then on belongs to the next
    Close {
        /// The month, as 2026-11
        #[arg(value_parser = clock::month)]
        month: String,
        /// Close it although a board is broken
        #[arg(long)]
        force: bool,
    },
    /// A month's bill: table, CSV, chart and page
    Bill(ToBill),
    /// Every month that was opened
    List,
}

/// A month to open.
#[derive(Debug, Args)]
#[command(after_help = "\
FILE is a text of prices, each a decimal number of at most six places:
  currency = EUR
  program = 0.02
  erase = 0.35
  register-write = 0.05
  ignored = 0
What was played since the month before was closed belongs to this one.")]
pub struct Open {
    /// The month, as 2026-11
    #[arg(value_parser = clock::month)]
    month: String,
    /// A text of prices
    #[arg(long, value_name = "FILE")]
    prices: PathBuf,
    /// Give a month that is open these prices, and this name
    #[arg(long)]
    force: bool,
}

/// A month to bill.
#[derive(Debug, Args)]
pub struct ToBill {
    /// The month, as 2026-11
    #[arg(value_parser = clock::month)]
    month: String,
    /// A line a play, with its hashes
    #[arg(long)]
    detail: bool,
    /// Also as comma-separated values
    #[arg(long, value_name = "FILE")]
    csv: Option<PathBuf>,
    /// Also as a chart
    #[arg(long, value_name = "FILE")]
    svg: Option<PathBuf>,
    /// Also as a page to print
    #[arg(long, value_name = "FILE")]
    html: Option<PathBuf>,
    /// Replace files that are there
    #[arg(long)]
    force: bool,
}

impl Month {
    /// Carries it out.
    ///
    /// # Errors
    ///
    /// A month that is not open, or open already; files; the pool.
    pub fn run(&self, pool: &Asked, json: bool) -> Result<Told, Error> {
        match self {
            Month::Open(call) => call.run(pool),
            Month::Close { month, force } => close(pool, month, *force),
            Month::Bill(call) => call.run(pool, json),
            Month::List => list(pool),
        }
    }
}

impl Open {
    fn run(&self, pool: &Asked) -> Result<Told, Error> {
        let prices = Prices::read(&self.prices)?;
        let mut pool = pool.open()?;
        let (plays, was) = pool.write(|book, now| {
            let was = months::last(book)?.name;
            months::open(book, now, &self.month, &prices, self.force)?;
            Ok((plays(book, months::last(book)?.id)?, was))
        })?;
        let was = was.filter(|was| *was != self.month);
        let was = was.map_or(String::new(), |was| format!(", called {was} before"));
        let text = format!(
            "{}: open{was}, {} plays so far\n",
            self.month,
            grouped(plays)
        );
        Ok(Told::new(
            text,
            json!({ "month": self.month, "plays": plays }),
        ))
    }
}

fn plays(book: &Connection, month: i64) -> Result<u64, Error> {
    let count = "SELECT count(*) FROM play WHERE month = ?1";
    Ok(book.query_row(count, [month], |row| row.get(0))?)
}

fn close(pool: &Asked, name: &str, force: bool) -> Result<Told, Error> {
    let mut pool = pool.open()?;
    let (plays, closed, seal, notes) = pool.write(|book, now| {
        let month = months::find_open(book, name)?;
        if !force {
            unbroken(book, name)?;
        }
        let notes = sound::notes(book, &month)?;
        // A month that cannot be billed is not closed.
        let mut bill = bills::drawn(book, &month)?;
        table::render(&bill, false, WIDTH).map_err(fault)?;
        bill.closed = Some(now.to_string());
        let seal = seals::of(book, &month, &bill)?;
        months::close(book, now, &month, seal)?;
        Ok((plays(book, month.id)?, now.to_string(), hex(&seal), notes))
    })?;
    let text = format!("{name}: closed at {closed}, {} plays\n", grouped(plays));
    let json = json!({
        "month": name, "closed": closed, "plays": plays, "seal": seal, "notes": notes,
    });
    Ok(Told::new(text + &noted(&notes), json))
}

/// That every board could have played; a department whose board could not
/// would be billed nothing, in silence.
fn unbroken(book: &Connection, month: &str) -> Result<(), Error> {
    let faults = sound::faults(book, &boards::all(book)?)?;
    match &faults[..] {
        [] => Ok(()),
        [first, rest @ ..] => {
            let more = match rest.len() {
                0 => String::new(),
                more => format!(", and {more} more"),
            };
            Err(Error::denied(format_args!(
                "{month} is not closed: {first}{more}; --force closes it all the same"
            )))
        }
    }
}

/// Notes in words, a line each.
fn noted(notes: &[String]) -> String {
    notes.iter().map(|note| format!("note: {note}\n")).collect()
}

fn list(pool: &Asked) -> Result<Told, Error> {
    let all = pool.open()?.read(|book| {
        let months = months::all(book)?.into_iter();
        months
            .map(|month| Ok((plays(book, month.id)?, month)))
            .collect::<Result<Vec<_>, Error>>()
    })?;
    let mut text = String::new();
    let mut values = Vec::new();
    for (plays, month) in all {
        let name = month.name.unwrap_or_default();
        let opened = month.opened.unwrap_or_default();
        let closed = month.closed.as_ref();
        let ends = closed.map_or("still open".to_string(), |closed| {
            format!("closed {closed}")
        });
        let _ = writeln!(
            text,
            "{name}  opened {opened}, {ends}, {} plays",
            grouped(plays)
        );
        let seal = month.seal.map(|seal| hex(&seal));
        values.push(json!({
            "month": name, "opened": opened, "closed": closed, "plays": plays, "seal": seal,
        }));
    }
    Ok(Told::new(text, Value::from(values)))
}

/// Columns of a table that no terminal shows.
const WIDTH: usize = 100;

fn fault(fault: Fault) -> Error {
    Error::wrong(fault)
}

/// The columns of the terminal, if it is one.
fn width() -> usize {
    let size = rustix::termios::tcgetwinsize(std::io::stdout());
    size.map_or(WIDTH, |size| match size.ws_col {
        0 => WIDTH,
        columns => columns.into(),
    })
}

impl ToBill {
    fn run(&self, pool: &Asked, json: bool) -> Result<Told, Error> {
        let mut outputs = Outputs::new(self.force);
        for (path, _) in self.forms() {
            outputs.check(path)?;
        }
        let (bill, notes) = pool.open()?.read(|book| {
            let bill = bills::bill(book, &self.month)?;
            Ok((bill, sound::notes(book, &months::find(book, &self.month)?)?))
        })?;
        let mut text = table::render(&bill, self.detail, width()).map_err(fault)?;
        text.push_str(&noted(&notes));
        for (path, form) in self.forms() {
            outputs.lay(path, form(&bill, self.detail).map_err(fault)?)?;
        }
        let data = outputs.commit()?;
        let written: Vec<String> = self.forms().map(|(path, _)| shown(path)).collect();
        if !written.is_empty() {
            let _ = writeln!(text, "written: {}", written.join(", "));
        }
        let value = match json {
            true => bill_json::render(&bill, self.detail).map_err(fault)?,
            false => "null".to_string(),
        };
        let mut value: Value = serde_json::from_str(&value).map_err(Error::wrong)?;
        if json {
            value["notes"] = notes.into();
        }
        Ok(Told::new(text, value).with_data(data))
    }

    fn forms(&self) -> impl Iterator<Item = (&Path, Form)> {
        let chart: Form = |bill, _| chart::render(bill);
        let csv: (_, Form) = (&self.csv, csv::render);
        let forms = [csv, (&self.svg, chart), (&self.html, html::render)];
        let given = forms
            .into_iter()
            .filter_map(|(path, form)| Some((path.as_deref()?, form)));
        given.collect::<Vec<_>>().into_iter()
    }
}

type Form = fn(&Bill, bool) -> Result<String, Fault>;

/// A month's bill as a table, for calls that end with one.
///
/// # Errors
///
/// A month that was never opened; the pool.
pub fn bill(book: &Connection, month: &str) -> Result<String, Error> {
    let notes = sound::notes(book, &months::find(book, month)?)?;
    let table = table::render(&bills::bill(book, month)?, false, width()).map_err(fault)?;
    Ok(table + &noted(&notes))
}
