//! `tunebriar board`: boards added, listed, shown, exported and imported.

use crate::chip::{NAME, PART};
use crate::error::{Error, shown};
use crate::numbers::grouped;
use crate::output::Outputs;
use crate::pool::boards::{self, Board as Row};
use crate::pool::{Asked, sectors, sound};
use crate::told::Told;
use crate::{areas, files, names, play, report, state_file, words};
use clap::{Args, Subcommand};
use serde_json::{Value, json};
use std::fmt::Write;
use std::path::{Path, PathBuf};
use tunebriar::{Meter, Refusal, Registers, SIZE, State, replay};

/// How it is called.
#[derive(Debug, Subcommand)]
pub enum Board {
    /// New boards: erased, or with an image
    Add(Add),
    /// Every board, by department
    List,
    /// One board: department, registers, meter
    Show {
        /// The board
        board: String,
    },
    /// A board's array and state, as files
    Export(Export),
    /// A new board from an array and a state
    Import(Import),
}

/// New boards.
#[derive(Debug, Args)]
pub struct Add {
    /// Their names
    #[arg(required = true, value_name = "BOARD")]
    boards: Vec<String>,
    /// The department that pays for them
    #[arg(long)]
    department: String,
    /// Their chip
    #[arg(long, default_value = NAME, value_parser = [NAME])]
    chip: String,
    /// Their array's bytes, all 2,097,152 of them; erased where nothing is said
    #[arg(long, value_name = "FILE")]
    image: Option<PathBuf>,
    /// Their protection: 0 to 31, none, all, or an area as 'top 64k'
    #[arg(long, default_value = "none", value_parser = setting)]
    setting: u8,
}

/// A board as files.
#[derive(Debug, Args)]
pub struct Export {
    /// The board
    board: String,
    /// The array's file, 2,097,152 bytes
    array: PathBuf,
    /// The state's file, a text of registers and meter
    state: Option<PathBuf>,
    /// Replace files that are there
    #[arg(long)]
    force: bool,
}

/// A board from files.
#[derive(Debug, Args)]
pub struct Import {
    /// Its name
    board: String,
    /// The array's file, 2,097,152 bytes
    array: PathBuf,
    /// The state's file, a text of registers and meter
    state: PathBuf,
    /// The department that pays for it
    #[arg(long)]
    department: String,
}

fn setting(word: &str) -> Result<u8, String> {
    match areas::setting(word)? {
        setting @ 0..=31 => Ok(setting),
        setting => Err(format!("{setting} is no setting 0 to 31")),
    }
}

impl Board {
    /// Carries it out.
    ///
    /// # Errors
    ///
    /// Refusals 2 and 3; files; names; the pool.
    pub fn run(&self, pool: &Asked) -> Result<Told, Error> {
        match self {
            Board::Add(call) => call.run(pool),
            Board::List => list(pool),
            Board::Show { board } => show(pool, board),
            Board::Export(call) => call.run(pool),
            Board::Import(call) => call.run(pool),
        }
    }
}

impl Add {
    fn run(&self, pool: &Asked) -> Result<Told, Error> {
        let state = State {
            registers: Registers {
                status: u16::from(self.setting) << 2,
                awake: true,
            },
            meter: Meter::default(),
        };
        let (array, from) = match &self.image {
            Some(image) => (
                files::read_up_to(image, SIZE)?,
                format!("from {}", shown(image)),
            ),
            None => (vec![0xFF; SIZE], "erased".to_string()),
        };
        let array_name = self.image.as_deref().unwrap_or(Path::new("array"));
        let array = checked(array, state, array_name, array_name)?;
        added(pool, &self.boards, &self.department, (state, &array), &from)
    }
}

impl Import {
    fn run(&self, pool: &Asked) -> Result<Told, Error> {
        let state = state_file::read(&self.state)?;
        let array = files::read_up_to(&self.array, SIZE)?;
        let array = checked(array, state, &self.array, &self.state)?;
        let from = format!("from {} and {}", shown(&self.array), shown(&self.state));
        let board = std::slice::from_ref(&self.board);
        added(pool, board, &self.department, (state, &array), &from)
    }
}

/// An array that the library would play on: it checks size and registers
/// before it finds that an empty tape asks for nothing.
///
/// # Errors
///
/// Refusals 2 and 3, over the file that each is about.
pub fn checked(
    mut array: Vec<u8>,
    state: State,
    array_file: &Path,
    state_file: &Path,
) -> Result<Vec<u8>, Error> {
    let about = |refusal: Refusal| match refusal.number() {
        2 => shown(array_file),
        _ => shown(state_file),
    };
    match replay(PART, state, &mut array, &[]) {
        Ok(_) => Ok(array),
        Err(refusal) => Err(Error::refused(about(refusal), refusal)),
    }
}

/// A board that is to be added.
///
/// # Errors
///
/// Where a name is none.
pub fn fresh(name: &str, department: &str, state: State, now: &str) -> Result<Row, Error> {
    let good = |what: &str, word: &str| {
        names::name(word).map_err(|words| Error::wrong(format_args!("the {what}: {words}")))
    };
    Ok(Row {
        id: 0,
        name: good("board", name)?,
        department: good("department", department)?,
        chip: NAME.to_string(),
        added: now.to_string(),
        state,
    })
}

fn added(
    pool: &Asked,
    names: &[String],
    department: &str,
    (state, array): (State, &[u8]),
    from: &str,
) -> Result<Told, Error> {
    let array = sectors::of(array);
    let boards: Vec<Row> = pool.open()?.write(|book, now| {
        let boards = names.iter().map(|name| {
            let board = fresh(name, department, state, now)?;
            boards::add(book, &board, &array)
        });
        boards.collect::<Result<_, _>>()
    })?;
    let lines = boards.iter().map(|board| {
        let (name, department) = (&board.name, &board.department);
        format!("{name}: a board of {department}, {from}\n")
    });
    let registers = words::registers(state.registers);
    let text = lines.collect::<String>() + &format!("registers  {registers}\n");
    Ok(Told::new(text, boards.iter().map(json).collect()))
}

fn json(board: &Row) -> Value {
    json!({
        "board": board.name,
        "department": board.department,
        "chip": board.chip,
        "added": board.added,
        "state": report::state_json(board.state),
    })
}

fn list(pool: &Asked) -> Result<Told, Error> {
    let (all, faults) = pool.open()?.read(|book| {
        let all = boards::all(book)?;
        let faults = sound::faults(book, &all)?;
        Ok((all, faults))
    })?;
    let width = |of: fn(&Row) -> &str| {
        let widths = all
            .iter()
            .map(|board| unicode_width::UnicodeWidthStr::width(of(board)));
        widths.max().unwrap_or(0)
    };
    let widths = (width(|board| &board.department), width(|board| &board.name));
    let mut text = String::new();
    for board in &all {
        let department = padded(&board.department, widths.0);
        let name = padded(&board.name, widths.1);
        let meter = words::meter(board.state.meter);
        let _ = writeln!(text, "{department}  {name}  {meter}");
    }
    let boards = grouped(all.len());
    let _ = writeln!(text, "{boards} boards");
    let faults: Vec<String> = faults.iter().map(ToString::to_string).collect();
    let mut told = Told::new(text, all.iter().map(json).collect());
    told.refused = play::refused(&faults);
    Ok(told)
}

fn padded(text: &str, width: usize) -> String {
    let here = unicode_width::UnicodeWidthStr::width(text);
    format!("{text}{}", " ".repeat(width.saturating_sub(here)))
}

fn show(pool: &Asked, name: &str) -> Result<Told, Error> {
    let board = pool.open()?.read(|book| boards::find(book, name))?;
    let Row {
        name,
        department,
        chip,
        added,
        state,
        ..
    } = &board;
    let text = format!(
        "board      {name}\ndepartment {department}\nchip       {chip}\nadded      {added}\n{}",
        report::state(*state)
    );
    Ok(Told::new(text, json(&board)))
}

impl Export {
    fn run(&self, pool: &Asked) -> Result<Told, Error> {
        let mut outputs = Outputs::new(self.force);
        outputs.check(&self.array)?;
        if let Some(state) = &self.state {
            outputs.check(state)?;
        }
        let (board, array) = pool.open()?.read(|book| {
            let board = boards::find(book, &self.board)?;
            let array = sectors::array(book, board.id)?;
            Ok((board, array))
        })?;
        outputs.lay(&self.array, array)?;
        let mut text = format!("{}: {} bytes\n", shown(&self.array), grouped(SIZE));
        if let Some(state) = &self.state {
            outputs.lay(state, state_file::text(board.state))?;
            let registers = words::registers(board.state.registers);
            let _ = writeln!(text, "{}: {registers}", shown(state));
        }
        Ok(Told::new(text, json(&board)).with_data(outputs.commit()?))
    }
}
