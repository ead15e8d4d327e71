//! docs/GUIDE.md, typed as it stands. A block `console serve` is a terminal in which
//! a server runs beside what follows; it and the blocks `console flashrom` are typed
//! where flashrom 1.3 is installed.

use crate::common::Folder;
use crate::serve::server::Server;
use std::path::PathBuf;

/// Where the guide's server is; ours is where the system lets it.
const PLACE: &str = "127.0.0.1:4025";

fn guide() -> String {
    let path = PathBuf::from(env!("CARGO_MANIFEST_DIR")).join("../../docs/GUIDE.md");
    std::fs::read_to_string(path).expect("the guide")
}

/// The fenced blocks: what stands behind the fence, and the lines inside.
fn blocks(text: &str) -> Vec<(String, Vec<&str>)> {
    let mut blocks: Vec<(String, Vec<&str>)> = Vec::new();
    let mut inside = false;
    for line in text.lines() {
        match (line.strip_prefix("```"), inside) {
            (Some(kind), false) => blocks.push((kind.to_string(), Vec::new())),
            (Some(_), true) => {}
            (None, true) => blocks.last_mut().expect("a block").1.push(line),
            (None, false) => continue,
        }
        inside ^= line.starts_with("```");
    }
    blocks
}

/// The lines that begin with `$`, each with what is told after it.
fn calls<'a>(lines: &[&'a str]) -> Vec<(&'a str, String)> {
    let mut calls: Vec<(&str, String)> = Vec::new();
    for line in lines {
        match (line.strip_prefix("$ "), calls.last_mut()) {
            (Some(call), _) => calls.push((call, String::new())),
            (None, Some((_, told))) => *told += &format!("{line}\n"),
            (None, None) => panic!("{line}: told by nobody"),
        }
    }
    calls
}

/// The server of the guide's other terminal: what it has said, and is to say.
struct Beside {
    server: Server,
    said: String,
    told: String,
}

impl Beside {
    fn start(folder: &Folder, lines: &[&str]) -> Beside {
        let (call, told) = calls(lines).remove(0);
        let options = call.strip_prefix("tunebriar serve ").expect("a server");
        let mut server = Server::spawn(folder, &options.replace(PLACE, "127.0.0.1:0"));
        let said = server.line() + "\n";
        server.place = said.trim_end().rsplit(' ').next().expect("a place").into();
        Beside { server, said, told }
    }

    /// A client has gone: its play is in the book when its line is there.
    fn session(&mut self) {
        let mut line = String::new();
        while !line.contains(" transactions, ") {
            line = self.server.line();
            self.said += &format!("{line}\n");
        }
    }

    /// Told to end, it has said all of it.
    fn end(self) {
        self.server.signal("INT");
        let place = self.server.place.clone();
        let (status, lines, complaint) = self.server.ended();
        let rest: String = lines.iter().map(|line| format!("{line}\n")).collect();
        assert_eq!((self.said + &rest).replace(&place, PLACE), self.told);
        assert_eq!((status, complaint), (Some(0), String::new()));
    }
}

/// Types one line into a shell, both outputs together.
fn typed(folder: &Folder, line: &str, beside: Option<&mut Beside>) -> String {
    let Some(beside) = beside else {
        return folder.shell(&format!("exec 2>&1; {line}")).out;
    };
    let place = &beside.server.place;
    let line = line.replace(PLACE, place);
    let told = folder.shell(&format!("exec 2>&1; {line}")).out;
    let told = told.replace(place, PLACE);
    if line.starts_with("flashrom ") {
        beside.session();
    }
    told
}

#[test]
fn the_walk_is_true() {
    let folder = Folder::new("guide");
    let text = guide();
    // Debian 12's, which calls itself unknown; others word their lines in other ways.
    let flashrom = folder.shell("flashrom --version | grep -E '^flashrom (unknown|v?1[.]3)'");
    let flashrom = flashrom.status == 0;
    let (mut typed_lines, mut beside) = (0, None);
    for (kind, lines) in blocks(&text) {
        if let Some(name) = kind.strip_prefix("text ") {
            folder.write(name, lines.join("\n") + "\n");
        }
        if kind == "console serve" && flashrom {
            beside = Some(Beside::start(&folder, &lines));
        }
        if kind != "console" && !(kind == "console flashrom" && flashrom) {
            continue;
        }
        for (call, told) in calls(&lines) {
            assert_eq!(typed(&folder, call, beside.as_mut()), told, "{call}");
            typed_lines += 1;
        }
    }
    assert!(typed_lines > 15, "the walk has been found");
    assert_eq!(beside.is_some(), flashrom, "and the server's");
    if let Some(beside) = beside {
        beside.end();
    }
    assert!(folder.path.join("bill.svg").is_file());
}
