//! The server as a process of its own, which ends with the test at the latest.

use super::client::{Client, PATIENCE};
use crate::common::Folder;
use std::io::{BufRead, BufReader, Read};
use std::net::TcpStream;
use std::process::{Child, Command, Stdio};
use std::sync::mpsc::{Receiver, channel};
use std::thread::{sleep, spawn};
use std::time::{Duration, Instant};

pub struct Server {
    /// The words that it was started with.
    call: String,
    child: Child,
    lines: Receiver<String>,
    /// Where it serves: address and port, or the terminal's name.
    pub place: String,
}

/// What a session came to, as the server tells it.
#[derive(Debug, PartialEq, Eq)]
pub struct Session {
    pub transactions: u64,
    pub rise: [u64; 4],
}

/// Asks until there is an answer, and no longer than `PATIENCE`.
pub fn until<T>(what: &str, mut ask: impl FnMut() -> Option<T>) -> T {
    let start = Instant::now();
    loop {
        if let Some(answer) = ask() {
            return answer;
        }
        assert!(start.elapsed() < PATIENCE, "never: {what}");
        sleep(Duration::from_millis(2));
    }
}

impl Server {
    /// Serves the board `b`, and knows where.
    pub fn start(folder: &Folder, options: &str) -> Server {
        Server::of(folder, "b", options)
    }

    pub fn of(folder: &Folder, board: &str, options: &str) -> Server {
        let line = format!("tunebriar.pool {board} {options}");
        let mut server = Server::spawn(folder, &line);
        let told = server.line();
        let place = told.strip_prefix(&format!("serving {board} on "));
        server.place = place
            .unwrap_or_else(|| panic!("{line}: {told}"))
            .to_string();
        server
    }

    /// A server that may not come to serve at all.
    pub fn spawn(folder: &Folder, line: &str) -> Server {
        let mut command = folder.command();
        command.arg("serve").args(line.split_whitespace());
        command.stdin(Stdio::null());
        command.stdout(Stdio::piped()).stderr(Stdio::piped());
        let mut child = command.spawn().expect("it runs");
        let out = BufReader::new(child.stdout.take().expect("its output"));
        let (told, lines) = channel();
        spawn(move || {
            for line in out.lines().map_while(Result::ok) {
                let _ = told.send(line);
            }
        });
        let (call, place) = (line.to_string(), String::new());
        Server {
            call,
            child,
            lines,
            place,
        }
    }

    /// The next line that it prints.
    pub fn line(&mut self) -> String {
        let line = self.lines.recv_timeout(PATIENCE);
        line.unwrap_or_else(|error| panic!("no line: {error}: {}", self.complaint()))
    }

    /// What the session that has just ended came to.
    pub fn session(&mut self) -> Session {
        Session::of(&self.line())
    }

    /// The same of a session that ended in an unusual way, which is told too.
    pub fn session_ended(&mut self, why: &str) -> Session {
        let line = self.line();
        assert!(line.ends_with(&format!("; {why}")), "{line}");
        Session::of(&line)
    }

    pub fn client(&self) -> Client<TcpStream> {
        Client::connect(&self.place)
    }

    /// Sends it a signal, by the name that `kill` takes.
    pub fn signal(&self, name: &str) {
        let line = format!("kill -s {name} {}", self.child.id());
        let sent = Command::new("sh").args(["-c", &line]).status();
        assert!(sent.expect("sh").success(), "{line}");
    }

    /// Waits for its end: its exit status, what it said since, what it complained of.
    pub fn ended(mut self) -> (Option<i32>, Vec<String>, String) {
        let what = format!("an end of serve {}", self.call);
        let status = until(&what, || self.child.try_wait().expect("a status"));
        let lines = self.lines.iter().collect();
        let complaint = self.complaint();
        (status.code(), lines, complaint)
    }

    /// Waits for its end, which must be a clean one.
    pub fn ended_well(self) {
        let (status, _, complaint) = self.ended();
        assert_eq!((status, complaint.as_str()), (Some(0), ""));
    }

    /// Kills it here and now; dropping does.
    pub fn killed(self) {}

    /// Whether it still runs.
    pub fn runs(&mut self) -> bool {
        self.child.try_wait().expect("a status").is_none()
    }

    /// What stands on its standard error, once it has ended.
    fn complaint(&mut self) -> String {
        let _ = self.child.kill();
        let mut complaint = String::new();
        if let Some(mut err) = self.child.stderr.take() {
            err.read_to_string(&mut complaint).expect("text");
        }
        complaint
    }
}

impl Drop for Server {
    fn drop(&mut self) {
        let _ = self.child.kill();
        let _ = self.child.wait();
    }
}

impl Session {
    /// So many transactions, and the rise of the four counts.
    pub fn new(transactions: u64, rise: [u64; 4]) -> Session {
        Session { transactions, rise }
    }

    fn of(line: &str) -> Session {
        let number = |word: &str| word.replace([',', ';'], "").parse::<u64>().ok();
        let after = |name: &str| {
            let rest = line.split(name).nth(1)?;
            number(rest.split_whitespace().next()?)
        };
        let before = line.split(" transaction").next();
        let transactions = before.and_then(|words| number(words.split(' ').next_back()?));
        let rise = ["programs", "erases", "register writes", "ignored"].map(after);
        match (transactions, rise) {
            (Some(transactions), [Some(a), Some(b), Some(c), Some(d)]) => {
                Session::new(transactions, [a, b, c, d])
            }
            _ => panic!("no session: {line}"),
        }
    }
}
