//! Replays the same tapes by the proved library and by an ordinary Rust replay,
//! both optimised, in one run on one machine, and prints what a record costs.

#![forbid(unsafe_code)]

mod plain;
mod tapes;

use std::hint::black_box;
use std::process::ExitCode;
use std::time::Instant;

use check::SIZE;
use check::bytes::RECORD;
use tapes::Tape;
use tunebriar::ffi;

/// Timed runs of each; the figure is their median.
const RUNS: usize = 101;

/// What the array holds before each run.
const GROUNDS: [(&str, u8); 2] = [("erased (all FF)", 0xFF), ("full (all 00)", 0x00)];

/// A line of the table, in nanoseconds a record.
struct Line {
    tape: &'static str,
    ground: &'static str,
    records: usize,
    proved: f64,
    plain: f64,
}

impl Line {
    fn ratio(&self) -> f64 {
        self.proved / self.plain
    }
}

fn main() -> ExitCode {
    let mut arguments = std::env::args().skip(1);
    let path = match (arguments.next().as_deref(), arguments.next()) {
        (None, _) => None,
        (Some("--write"), Some(path)) => Some(path),
        _ => {
            eprintln!("bench [--write FILE]");
            return ExitCode::from(2);
        }
    };
    match measured() {
        Ok(lines) => report(&lines, path),
        Err(found) => {
            eprintln!("{found}");
            ExitCode::FAILURE
        }
    }
}

fn report(lines: &[Line], path: Option<String>) -> ExitCode {
    let text = table(lines);
    print!("{text}");
    let Some(path) = path else {
        return ExitCode::SUCCESS;
    };
    match std::fs::write(&path, text) {
        Ok(()) => ExitCode::SUCCESS,
        Err(wrong) => {
            eprintln!("{path}: {wrong}");
            ExitCode::FAILURE
        }
    }
}

fn measured() -> Result<Vec<Line>, String> {
    let tapes = tapes::all();
    let mut array = vec![0; SIZE];
    let mut lines = Vec::new();
    for tape in &tapes {
        for (ground, byte) in GROUNDS {
            agree(tape, byte)?;
            lines.push(line(tape, ground, byte, &mut array));
        }
    }
    Ok(lines)
}

fn start() -> plain::State {
    plain::State {
        awake: true,
        ..plain::State::default()
    }
}

fn play_plain(array: &mut [u8], tape: &[u8]) -> (Result<(), plain::Refused>, plain::State) {
    let mut state = start();
    let played = plain::replay(&mut state, array, tape);
    (played, state)
}

fn play_proved(array: &mut [u8], tape: &[u8]) -> ffi::Answer {
    let regs = ffi::Regs {
        status: 0,
        awake: 1,
    };
    ffi::replay(1, regs, ffi::Meter::default(), array.into(), tape.into())
}

/// Both must do the same work, or the figures say nothing.
fn agree(tape: &Tape, ground: u8) -> Result<(), String> {
    let (mut first, mut second) = (vec![ground; SIZE], vec![ground; SIZE]);
    let answer = play_proved(&mut first, &tape.bytes);
    let (played, state) = play_plain(&mut second, &tape.bytes);
    let told = plain::State {
        status: answer.regs.status as u16,
        awake: answer.regs.awake == 1,
        programs: answer.meter.programs,
        erases: answer.meter.erases,
        register_writes: answer.meter.register_writes,
        ignored: answer.meter.ignored,
    };
    if answer.number == 0 && played.is_ok() && told == state && first == second {
        return Ok(());
    }
    Err(format!(
        "{}: the two replays differ: {told:?}, {state:?}",
        tape.name
    ))
}

/// Runs the two in turn, each on the same array, filled anew before.
fn line(tape: &Tape, ground: &'static str, byte: u8, array: &mut [u8]) -> Line {
    let records = tape.bytes.len() / RECORD;
    let (mut proved, mut plain) = (Vec::new(), Vec::new());
    for _ in 0..RUNS {
        array.fill(byte);
        proved.push(timed(records, || {
            black_box(play_proved(array, black_box(&tape.bytes)));
        }));
        array.fill(byte);
        plain.push(timed(records, || {
            let _ = black_box(play_plain(array, black_box(&tape.bytes)));
        }));
    }
    Line {
        tape: tape.name,
        ground,
        records,
        proved: median(proved),
        plain: median(plain),
    }
}

fn timed(records: usize, run: impl FnOnce()) -> f64 {
    let start = Instant::now();
    run();
    start.elapsed().as_nanos() as f64 / records as f64
}

fn median(mut times: Vec<f64>) -> f64 {
    times.sort_by(f64::total_cmp);
    times[times.len() / 2]
}

fn table(lines: &[Line]) -> String {
    let mut text = format!(
        "# Replay: what a record costs\n\n\
         Nanoseconds a record, the checks before the first record included. Proved: `tb_replay` of\n\
         `libtunebriar.a`. Plain: an ordinary Rust replay of the same tapes, `plain.rs` beside the\n\
         benchmark. Both optimised, in one process on one machine ({}), in turn,\n\
         median of {RUNS} runs each. Before each run the array was filled, so all buffers, array and\n\
         tape, had been touched. Before any run both were seen to give the same answer and array.\n\n\
         | Tape | Array | Records | Proved | Plain | Ratio |\n|---|---|---|---|---|---|\n",
        machine()
    );
    for line in lines {
        let (proved, plain, ratio) = (line.proved, line.plain, line.ratio());
        text += &format!(
            "| {} | {} | {} | {proved:.1} | {plain:.1} | {ratio:.2} |\n",
            line.tape, line.ground, line.records
        );
    }
    let most = lines.iter().map(Line::ratio).fold(0.0, f64::max);
    text + &format!(
        "\nThe largest ratio is {most:.2}.\n\nAgain: `cargo run --release -p check --bin bench` in `host/`.\n"
    )
}

fn machine() -> String {
    let told = std::fs::read_to_string("/proc/cpuinfo").unwrap_or_default();
    let model = told
        .lines()
        .find_map(|line| line.strip_prefix("model name"));
    let model = model.and_then(|rest| rest.split(':').nth(1));
    model.map_or_else(|| "unknown".into(), |name| name.trim().to_string())
}
