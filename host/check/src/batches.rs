//! Random batches: each starts from its own seed, on arrays of its own making,
//! and can be run again alone.

use std::time::{Duration, Instant};

use tunebriar::ffi::{Meter, Regs};

use crate::bytes::aim;
use crate::calls::{Call, Kept, Playing};
use crate::generate::{self, Sent};
use crate::options::Options;
use crate::reached::Entry;
use crate::rng::Rng;
use crate::suite::Suite;
use crate::tape_edges::FAR;
use crate::twin::Twin;
use crate::{Checked, FULL, SIZE};

/// A kind of batch.
pub struct Plan {
    /// Its name.
    pub name: &'static str,
    /// How many batches an ordinary run has.
    pub batches: u64,
    /// Runs one.
    pub run: fn(&mut Twin, &mut Rng) -> Checked,
}

impl Plan {
    /// A kind of batch, and how many of it there are.
    #[must_use]
    pub const fn new(
        name: &'static str,
        batches: u64,
        run: fn(&mut Twin, &mut Rng) -> Checked,
    ) -> Plan {
        Plan { name, batches, run }
    }
}

const PLANS: [Plan; 8] = [
    Plan::new("chained", 80, chained),
    Plan::new("any registers", 40, any_registers),
    Plan::new("hostile", 40, hostile),
    Plan::new("full meters", 10, full_meters),
    crate::counts::PLAN,
    Plan::new("replays", 60, replays),
    Plan::new("long replays", 8, long_replays),
    Plan::new("reads", 15, reads),
];

/// Transactions of one batch.
const CALLS: u64 = 20_000;
/// Where the numbers of further batches begin, past those of any ordinary run.
const FURTHER: u64 = 1_000_000;

/// All kinds of batches there are in this build.
fn plans() -> Vec<Plan> {
    let plans = PLANS.into_iter();
    #[cfg(feature = "jobs")]
    let plans = plans.chain(crate::job_batches::PLANS);
    plans.chain([crate::typed::PLAN]).collect()
}

/// An ordinary run: one named check for each kind of batch.
pub fn run(suite: &mut Suite) {
    for plan in plans() {
        let (name, seed) = (format!("random/{}", plan.name), suite.options.seed);
        let numbers = numbers(&suite.options, &name, plan.batches);
        suite.check(&name, |twin| {
            let mut numbers = numbers.into_iter();
            numbers.try_for_each(|number| batch(twin, &plan, seed, number))
        });
    }
}

/// The batches of a plan that are asked for: one that is named, or all.
fn numbers(options: &Options, name: &str, batches: u64) -> Vec<u64> {
    let only = options.only.as_deref().unwrap_or_default();
    let named = only
        .strip_prefix(name)
        .and_then(|rest| rest.strip_prefix('/'));
    match named.and_then(|number| number.parse().ok()) {
        Some(number) => vec![number],
        None => (0..batches.div_ceil(options.part)).collect(),
    }
}

/// Further batches of all kinds in turn until the time is over. Progress goes
/// to standard error.
pub fn soak(suite: &mut Suite) {
    if suite.options.soak == 0 {
        return;
    }
    let (options, start) = (suite.options.clone(), Instant::now());
    let mut plans = plans();
    plans.retain(|plan| options.wants(&format!("random/{}", plan.name)));
    let found = soaked(&mut suite.twin, &options, &plans, start);
    suite.note("soak", found);
}

fn soaked(twin: &mut Twin, options: &Options, plans: &[Plan], start: Instant) -> Checked {
    let mut said = start;
    for number in FURTHER.. {
        for plan in plans {
            batch(twin, plan, options.seed, number)?;
            let gone = start.elapsed().as_secs();
            if said.elapsed() >= Duration::from_secs(5) {
                said = Instant::now();
                eprintln!("soak: {gone} of {} s, {}", options.soak, counted(twin));
            }
            if gone >= options.soak {
                return Ok(());
            }
        }
    }
    Ok(())
}

/// How much was compared so far.
#[must_use]
pub fn counted(twin: &Twin) -> String {
    let calls = |entry| twin.reached.calls(entry);
    format!(
        "{} transactions, {} counts, {} replays, {} translations, {} quotes, {} reads, {} events",
        calls(Entry::Transact),
        calls(Entry::Count),
        calls(Entry::Replay) + calls(Entry::ReplayFirst),
        calls(Entry::Translate),
        calls(Entry::Quote),
        calls(Entry::Read),
        calls(Entry::Finish) + calls(Entry::PowerCycle),
    )
}

/// One batch; its name and the seed are said with what is found.
fn batch(twin: &mut Twin, plan: &Plan, seed: u64, number: u64) -> Checked {
    let name = plan.name;
    let mut rng = Rng::new(seed, name, number);
    ground(twin, &mut rng);
    let found = (plan.run)(twin, &mut rng).and_then(|()| twin.whole());
    found.map_err(|found| format!("--seed {seed:#X} --only 'random/{name}/{number}': {found}"))
}

/// What is on the arrays before: mostly anything, else all FF or all 00.
fn ground(twin: &mut Twin, rng: &mut Rng) {
    match rng.below(6) {
        0 => twin.set_all(0xFF),
        1 => twin.set_all(0x00),
        _ => twin.scribble(rng, 0, SIZE),
    }
}

/// After an erase, something to be programmed over again.
fn cover(twin: &mut Twin, rng: &mut Rng, bytes: &[u8]) {
    if !matches!(bytes.first(), Some(0x20 | 0x52 | 0xD8 | 0xC7 | 0x60)) || rng.one_in(3) {
        return;
    }
    if let Some(range) = aim(bytes) {
        twin.scribble(rng, range.start, range.len());
    }
}

fn call(kept: Kept, sent: Sent) -> Call {
    let mut call = Call::new(kept, &sent.bytes);
    (call.numbers.leftover, call.numbers.wp) = (sent.leftover, sent.wp);
    call
}

/// Registers and meter of one answer go into the next call.
fn chained(twin: &mut Twin, rng: &mut Rng) -> Checked {
    let mut kept = Kept::awake(0);
    for _ in 0..CALLS {
        kept = step(twin, rng, kept)?;
        if rng.one_in(150) {
            // Else a lock of (1, 1) or a whole protection would stay.
            kept.regs = generate::registers(rng);
        }
    }
    Ok(())
}

/// An event now and then, then a transaction.
fn step(twin: &mut Twin, rng: &mut Rng, mut kept: Kept) -> Checked<Kept> {
    kept.regs = match rng.below(if kept.regs.status & 1 == 1 { 3 } else { 40 }) {
        0 => regs(twin.finish(1, kept.regs)?),
        1 if rng.one_in(6) => regs(twin.power_cycle(1, kept.regs)?),
        _ => kept.regs,
    };
    let call = call(kept, generate::sensible(rng, kept.regs, 4_096));
    let answer = twin.transact(&call)?;
    if answer.number == 0 {
        cover(twin, rng, &call.bytes);
    }
    Ok(answer.into())
}

fn regs(event: second::Event) -> Regs {
    Regs {
        status: event.regs.status,
        awake: event.regs.awake,
    }
}

/// Each call from registers and a meter of its own, well formed or raw.
fn any_registers(twin: &mut Twin, rng: &mut Rng) -> Checked {
    for _ in 0..CALLS {
        let raw = rng.one_in(4);
        let regs = if raw {
            generate::wild_registers(rng)
        } else {
            generate::registers(rng)
        };
        let meter = generate::meter(rng);
        let call = call(Kept { regs, meter }, generate::sensible(rng, regs, 4_096));
        let answer = twin.transact(&call)?;
        if answer.number == 0 {
            cover(twin, rng, &call.bytes);
        }
        if rng.one_in(4) {
            twin.finish(generate::part(rng, 8), regs)?;
            twin.power_cycle(generate::part(rng, 8), regs)?;
        }
    }
    Ok(())
}

/// Any bytes, and often something else that is wrong, or two things.
fn hostile(twin: &mut Twin, rng: &mut Rng) -> Checked {
    for _ in 0..CALLS {
        let regs = if rng.one_in(6) {
            generate::wild_registers(rng)
        } else {
            generate::registers(rng)
        };
        let meter = if rng.one_in(6) {
            generate::meter(rng)
        } else {
            Meter::default()
        };
        let mut call = call(Kept { regs, meter }, generate::wild(rng));
        call.numbers.part = generate::part(rng, 12);
        if rng.one_in(10) {
            call.array = rng.pick(&[0, 1, 4_096, SIZE - 1, SIZE + 1]);
        }
        call.out = match rng.below(8) {
            0 => call.out.saturating_sub(1),
            1 => rng.below(call.out + 1),
            2 => call.out + rng.below(300),
            _ => call.out,
        };
        let answer = twin.transact(&call)?;
        if answer.number == 0 {
            cover(twin, rng, &call.bytes);
        }
    }
    Ok(())
}

/// Chains that run up to the top of a count and meet refusal 7 there.
fn full_meters(twin: &mut Twin, rng: &mut Rng) -> Checked {
    for _ in 0..CALLS / 20 {
        let mut count = || FULL - rng.under(12);
        let meter = Meter {
            programs: count(),
            erases: count(),
            register_writes: count(),
            ignored: count(),
        };
        let mut kept = Kept {
            meter,
            ..Kept::awake(2)
        };
        for _ in 0..20 {
            kept = step(twin, rng, kept)?;
        }
    }
    Ok(())
}

/// Tapes of a few records, good and damaged, played whole or in part; the state
/// goes from one to the next.
fn replays(twin: &mut Twin, rng: &mut Rng) -> Checked {
    let mut kept = Kept::awake(0);
    for _ in 0..CALLS / 20 {
        let records = rng.pick(&[0, 1, 2, 3, 5, 8, 13, 21]);
        let mut tape = generate::tape(rng, records);
        if rng.one_in(3) {
            generate::damage(rng, &mut tape);
        }
        let answer = twin.replay(&playing(rng, kept, &tape))?;
        kept = answer.into();
        if rng.one_in(8) {
            kept = Kept {
                regs: generate::registers(rng),
                meter: generate::meter(rng),
            };
        }
        if rng.one_in(40) {
            kept.regs = generate::wild_registers(rng);
        }
        if rng.one_in(30) {
            twin.scribble(rng, 0, SIZE);
        }
    }
    Ok(())
}

fn playing<'a>(rng: &mut Rng, kept: Kept, tape: &'a [u8]) -> Playing<'a> {
    let k = match rng.below(8) {
        0..3 => None,
        3 => Some(rng.pick(&FAR)),
        _ => Some(rng.below(24) as u64),
    };
    let array = if rng.one_in(30) {
        rng.pick(&[0, SIZE - 1, SIZE + 1])
    } else {
        SIZE
    };
    Playing {
        part: generate::part(rng, 40),
        kept,
        array,
        tape,
        k,
    }
}

/// A few tapes of thousands of records.
fn long_replays(twin: &mut Twin, rng: &mut Rng) -> Checked {
    let mut kept = Kept::awake(0);
    for _ in 0..4 {
        let records = 1_000 + rng.below(4_000);
        let mut tape = generate::tape(rng, records);
        let k = rng.below(records) as u64;
        kept = twin
            .replay(&Playing {
                k: Some(k),
                ..Playing::new(kept, &tape)
            })?
            .into();
        kept = twin.replay(&Playing::new(kept, &tape))?.into();
        generate::damage(rng, &mut tape);
        kept = twin.replay(&Playing::new(kept, &tape))?.into();
        kept.regs = generate::registers(rng);
        twin.scribble(rng, 0, SIZE);
    }
    Ok(())
}

/// Every place of a tape, places past it, and places far away.
fn reads(twin: &mut Twin, rng: &mut Rng) -> Checked {
    for _ in 0..CALLS / 20 {
        let records = rng.below(12);
        let mut tape = generate::tape(rng, records);
        if rng.one_in(2) {
            generate::damage(rng, &mut tape);
        }
        for place in 0..records as u64 + 3 {
            twin.read(&tape, place)?;
        }
        let far = rng.pick(&FAR);
        twin.read(&tape, far)?;
        twin.read(&tape, rng.next())?;
    }
    Ok(())
}
