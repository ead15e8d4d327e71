//! `tunebriar serve`: a board for whoever speaks serprog, as flashrom does.
//!
//! A session is one transaction of the book: it is held from the client's coming to
//! its going, and has then the session's tape as one play, or is as it was.

pub mod door;
pub mod end;
pub mod finish;
pub mod listen;
pub mod protocol;
pub mod pty;
pub mod session;
#[allow(unsafe_code, reason = "the system is called here and nowhere else")]
pub mod system;
pub mod talk;
pub mod wire;

use crate::bench::Bench;
use crate::error::Error;
use crate::numbers::{grouped, hex, spaced};
use crate::pool::{Asked, boards};
use crate::told::Told;
use crate::transact::Level;
use crate::{kept, report, words};
use clap::Args;
use door::Door;
use end::End;
use finish::Finish;
use listen::Listen;
use pty::Pty;
use serde_json::{Value, json};
use session::{How, Kept, Session};
use std::net::SocketAddr;
use std::path::PathBuf;
use std::time::{Duration, Instant};
use wire::{Stop, Wire};

/// How it is called.
#[derive(Debug, Args)]
#[command(
    allow_missing_positional = true,
    after_help = "serprog has no password, so only this machine is let in, and one client at a \
                  time. Each SPI operation is one transaction on the board, of at most 260 bytes. \
                  While a client is there the book is held for it; when it goes, what it did is \
                  one play in the book. SIGINT and SIGTERM end the server, and keep that play.\n\n\
                  Example: tunebriar serve tunebriar.pool bench-1 --listen 127.0.0.1:4000\n\
                  and then: flashrom -p serprog:ip=127.0.0.1:4000"
)]
pub struct Serve {
    /// The pool, in place of --pool
    #[arg(value_name = "POOL")]
    file: Option<PathBuf>,
    /// The board
    board: String,
    /// A loopback address and a port, 0 for any that is free
    #[arg(long, value_name = "ADDRESS:PORT", default_value = "127.0.0.1:0")]
    #[arg(value_parser = listen::address)]
    listen: SocketAddr,
    /// A pseudo-terminal in place of a port
    #[arg(long, conflicts_with = "listen")]
    pty: bool,
    /// When a busy chip is done: 'after-status-reads N' that still see BUSY, or 'at-once'
    #[arg(long, num_args = 1..=2, value_names = ["WHEN", "N"])]
    #[arg(default_values = ["after-status-reads", "1"])]
    finish: Vec<String>,
    /// Three bytes that 9F answers in place of the chip's own, as A14015
    #[arg(long, value_name = "HEX", value_parser = id)]
    answer_id: Option<Id>,
    /// The level of /WP
    #[arg(long, value_enum, default_value_t = Level::High)]
    wp: Level,
    /// End after the first session
    #[arg(long)]
    once: bool,
    /// How long a client may be silent before its session ends
    #[arg(long, value_name = "SECONDS", default_value_t = 60)]
    #[arg(value_parser = clap::value_parser!(u32).range(1..=86_400))]
    idle: u32,
}

/// How often a book that others hold is looked at.
const LOOK: Duration = Duration::from_millis(50);

/// How long a session that is over waits for calls that read the book: longer than
/// any of them takes.
const READERS: Duration = Duration::from_secs(86_400);

/// Maker, type and size, as 9F tells them.
type Id = [u8; 3];

fn id(word: &str) -> Result<Id, String> {
    let bytes = hex(word.split_whitespace())?;
    let told = |bytes: Vec<u8>| format!("{} bytes are not the 3 of 9F's answer", bytes.len());
    Id::try_from(bytes).map_err(told)
}

/// A session that is over.
struct Over {
    end: End,
    transactions: u64,
    kept: Option<Kept>,
}

impl Serve {
    /// Serves clients until it is told to end.
    ///
    /// # Errors
    ///
    /// A board that cannot be played on; a session that could not be kept; wrong
    /// usage; the pool.
    pub fn run(&self, pool: &Asked, json: bool) -> Result<Told, Error> {
        let how = self.how()?;
        let mut pool = pool.clone();
        pool.path = self.file.clone().unwrap_or(pool.path);
        pool.open()?.read(|book| boards::find(book, &self.board))?;
        let stop = Stop::signals()?;
        let mut door = self.door()?;
        self.begun(door.name()).tell(json)?;
        let mut sessions = 0;
        while let Some(file) = door.next(&stop)? {
            sessions += 1;
            let name = format!("serprog session {sessions} on {}", door.name());
            let idle = Duration::from_secs(self.idle.into());
            let stop = &stop;
            let over = self.session(&pool, how, &name, &Wire { file, stop, idle })?;
            self.over(&name, &over).tell(json)?;
            kept::forget();
            door.part(stop, over.end)?;
            if self.once || over.end == End::Stopped {
                break;
            }
        }
        Ok(Told::default())
    }

    fn door(&self) -> Result<Box<dyn Door>, Error> {
        Ok(match self.pty {
            true => Box::new(Pty::open()?),
            false => Box::new(Listen::open(self.listen)?),
        })
    }

    fn how(&self) -> Result<How, Error> {
        Ok(How {
            wp_high: self.wp == Level::High,
            finish: Finish::of(&self.finish).map_err(Error::wrong)?,
            answer_id: self.answer_id,
        })
    }

    /// A session, once the book can be had.
    fn session(&self, pool: &Asked, how: How, name: &str, wire: &Wire) -> Result<Over, Error> {
        let until = Instant::now() + Duration::from_secs(pool.wait.into());
        // We wait here ourselves, so as to hear if the server is told to end.
        let pool = Asked {
            wait: 0,
            ..pool.clone()
        };
        loop {
            let over = self.held(&pool, how, name, wire);
            if !over.as_ref().is_err_and(Error::is_in_use) || Instant::now() >= until {
                return over
                    .map_err(|error| Error::denied(format_args!("{name} was not kept: {error}")));
            }
            if wire.stop.pause(LOOK).unwrap_or(true) {
                return Ok(Over {
                    end: End::Stopped,
                    transactions: 0,
                    kept: None,
                });
            }
        }
    }

    /// Talks with a client while the book is held, and keeps what came of it.
    fn held(&self, pool: &Asked, how: How, name: &str, wire: &Wire) -> Result<Over, Error> {
        pool.open()?.write(|book, now| {
            let mut bench = Bench::new(book, now)?;
            bench.take(boards::find(book, &self.board)?)?;
            let mut session = Session::new(&mut bench, how);
            let end = talk::talk(wire, &mut session);
            // Nobody can do it again, so whoever reads the book is waited for.
            book.busy_timeout(READERS)?;
            let kept = session.keep(&mut bench, name)?;
            let transactions = session.transactions;
            Ok(Over {
                end,
                transactions,
                kept,
            })
        })
    }

    fn begun(&self, on: &str) -> Told {
        let mut text = format!("serving {} on {on}\n", self.board);
        let id = self.answer_id.map(|id| spaced(&id));
        if let Some(id) = &id {
            text.push_str(&format!(
                "9F answers {id} in place of the chip's own bytes; nothing else is altered\n"
            ));
        }
        let json = json!({ "board": self.board, "serving": on, "answer_id": id });
        Told::new(text, json)
    }

    fn over(&self, name: &str, over: &Over) -> Told {
        let (play, rise) = over.kept.unzip();
        let rise = rise.unwrap_or_default();
        let kept = play.map_or("no play".to_string(), |play| format!("play {play}"));
        let end = over.end.words();
        let text = format!(
            "{name}: {} transactions, {kept}: {}{}\n",
            grouped(over.transactions),
            words::meter(rise),
            end.as_ref().map_or(String::new(), |end| format!("; {end}"))
        );
        let json = json!({
            "board": self.board,
            "session": name,
            "transactions": over.transactions,
            "play": play.map_or(Value::Null, Value::from),
            "rise": report::meter_json(rise),
            "end": end,
        });
        Told::new(text, json)
    }
}
