//! Random jobs: translated and quoted by both, and the tape played to see that
//! it does what the job means.

use tunebriar::ffi::{Meter, Regs};

use crate::batches::Plan;
use crate::bytes::{erase, guard, lay};
use crate::calls::{Job, Kept, Playing, regs_of};
use crate::generate;
use crate::rng::Rng;
use crate::twin::Twin;
use crate::{Checked, SIZE, same};

/// The random batches of jobs.
pub const PLANS: [Plan; 2] = [
    Plan::new("jobs", 40, jobs),
    Plan::new("jobs played", 15, played),
];

/// A random step, mostly a good one where nothing is protected.
fn step(rng: &mut Rng, payload: usize) -> Vec<u8> {
    let address = generate::address(rng);
    match rng.below(12) {
        0 => erase(3, 0),
        1..5 => erase(rng.below(3) as u8, address),
        5..10 => {
            let most = rng.pick(&[4, 300, 600, 4_096]);
            let length = 1 + rng.under(most);
            lay(address, length, rng.below(payload + 1) as u32)
        }
        10 => guard(rng.pick(&[0, 0, 0, 1, 9, 17, 25])),
        _ => guard(rng.below(32) as u8),
    }
}

/// Steps that are accepted one after the other.
fn accepted(rng: &mut Rng, setting: u32, payload: &[u8], most: usize) -> Vec<u8> {
    let mut steps = Vec::new();
    for _ in 0..rng.below(most + 1) {
        let longer = [&steps[..], &step(rng, payload.len())].concat();
        if second::quote(1, setting, &longer, payload).number == 0 {
            steps = longer;
        }
    }
    steps
}

/// Steps as they come.
fn any(rng: &mut Rng, payload: &[u8]) -> Vec<u8> {
    let most = rng.pick(&[1, 2, 4, 64, 65, 66]);
    let count = rng.below(most + 1);
    (0..count).flat_map(|_| step(rng, payload.len())).collect()
}

fn spoil(rng: &mut Rng, steps: &mut Vec<u8>) {
    match rng.below(10) {
        0 => steps.push(rng.next() as u8),
        1 => *steps = rng.bytes(16),
        _ if steps.is_empty() => {}
        2 => {
            steps.pop();
        }
        3..7 => {
            let at = rng.below(steps.len());
            steps[at] ^= 1 << rng.below(8);
        }
        _ => {
            let at = rng.below(steps.len() / 16) * 16 + rng.pick(&[0, 1, 2, 3, 4, 8, 12, 15]);
            steps[at] = rng.next() as u8;
        }
    }
}

fn payload(rng: &mut Rng) -> Vec<u8> {
    let length = match rng.below(12) {
        0 => rng.pick(&[65_535, 65_536, 65_537]),
        1 => 5_000,
        2 => 0,
        _ => rng.below(700),
    };
    rng.bytes(length)
}

/// A job good or bad, and no tape.
pub(crate) fn any_job(rng: &mut Rng) -> Job {
    let payload = payload(rng);
    let setting = match rng.below(30) {
        0 => rng.pick(&[32, 255, 256, u32::MAX]),
        _ => rng.under(32),
    };
    let mut steps = match rng.below(3) {
        0 => accepted(rng, setting, &payload, 12),
        _ => any(rng, &payload),
    };
    if rng.one_in(3) {
        spoil(rng, &mut steps);
    }
    Job {
        part: generate::part(rng, 40),
        setting,
        steps,
        payload,
        tape: 0,
    }
}

/// Jobs good and bad, into tapes long enough or not.
fn jobs(twin: &mut Twin, rng: &mut Rng) -> Checked {
    for _ in 0..2_000 {
        let mut job = any_job(rng);
        let needed = twin.quote(&job)?.length as usize;
        job.tape = match rng.below(6) {
            0 => needed.saturating_sub(1),
            1 => rng.below(needed + 1),
            2 => needed + rng.below(2_000),
            _ => needed,
        };
        twin.translate(&job)?;
    }
    Ok(())
}

/// Registers that demand 3 starts from: WEL, S7 and S9 as they fall.
fn start(rng: &mut Rng, setting: u32) -> Regs {
    Regs {
        status: setting << 2 | rng.word() & 0x0282,
        awake: 1,
    }
}

/// Demand 3: the tape of an accepted job does what the job means and costs what
/// was quoted.
fn played(twin: &mut Twin, rng: &mut Rng) -> Checked {
    for _ in 0..60 {
        let payload = payload(rng);
        let setting = rng.under(32);
        let most = rng.pick(&[1, 3, 12, 64]);
        let steps = accepted(rng, setting, &payload, most);
        let mut job = Job {
            part: 1,
            setting,
            steps,
            payload,
            tape: 0,
        };
        let bill = twin.quote(&job)?;
        job.tape = bill.length as usize;
        twin.translate(&job)?;
        let tape = twin.written().to_vec();
        let regs = start(rng, setting);
        play(
            twin,
            &job,
            &tape,
            Kept {
                regs,
                meter: generate::meter(rng),
            },
            bill,
        )?;
        if rng.one_in(4) {
            twin.scribble(rng, 0, SIZE);
        }
    }
    Ok(())
}

fn play(twin: &mut Twin, job: &Job, tape: &[u8], kept: Kept, bill: second::Bill) -> Checked {
    let mut meant = twin.array().to_vec();
    let answer = twin.replay(&Playing::new(kept, tape))?;
    if answer.number == 7 {
        return Ok(());
    }
    second::meaning(job.setting, &job.steps, &job.payload, &mut meant);
    same(
        "the job's meaning on the array",
        &(twin.array() == meant),
        &true,
    )?;
    let regs = regs_of(kept.regs);
    let regs = second::meaning_on_registers(job.setting, &job.steps, &job.payload, regs);
    same("and on the registers", &answer.regs, &regs)?;
    let risen = Meter {
        programs: kept.meter.programs + bill.programs,
        erases: kept.meter.erases + bill.erases,
        register_writes: kept.meter.register_writes + bill.register_writes,
        ignored: kept.meter.ignored,
    };
    same("the rise is the quote", &Kept::from(answer).meter, &risen)
}
