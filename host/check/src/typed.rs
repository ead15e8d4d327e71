//! The typed wrapper says what the numbers say.

use tunebriar::{Meter, Part, Read, Record, Refusal, Registers, State, Transaction, Verdict, ffi};

use crate::batches::Plan;
use crate::calls::meter_of;
use crate::generate::{self, Sent};
use crate::rng::Rng;
use crate::twin::Twin;
use crate::{Checked, same};

/// Random calls through the wrapper, against the second's numbers.
pub const PLAN: Plan = Plan::new("wrapper", 10, wrapper);

const PART: Part = Part::Fm25q16;

fn wrapper(twin: &mut Twin, rng: &mut Rng) -> Checked {
    let mut state = State::default();
    for _ in 0..4_000 {
        state = transaction(twin, rng, state)?;
        if rng.one_in(4) {
            state.registers = events(rng, state.registers)?;
        }
        if rng.one_in(20) {
            state = replay(twin, rng, state)?;
            #[cfg(feature = "jobs")]
            job(rng)?;
        }
        if rng.one_in(100) {
            state.registers = typed(generate::registers(rng));
        }
    }
    Ok(())
}

/// Registers of the wrapper; what does not fit is dropped.
fn typed(regs: ffi::Regs) -> Registers {
    Registers {
        status: regs.status as u16,
        awake: regs.awake == 1,
    }
}

fn untyped(registers: Registers) -> second::Regs {
    second::Regs {
        status: u32::from(registers.status),
        awake: u32::from(registers.awake),
    }
}

fn typed_meter(meter: ffi::Meter) -> Meter {
    Meter {
        programs: meter.programs,
        erases: meter.erases,
        register_writes: meter.register_writes,
        ignored: meter.ignored,
    }
}

fn untyped_meter(meter: Meter) -> second::Meter {
    second::Meter {
        programs: meter.programs,
        erases: meter.erases,
        register_writes: meter.register_writes,
        ignored: meter.ignored,
    }
}

/// The same state as the second has it.
fn taken(state: State) -> (second::Regs, second::Meter) {
    (untyped(state.registers), untyped_meter(state.meter))
}

fn told(refusal: Refusal) -> (u32, u64) {
    (refusal.number(), refusal.index())
}

/// The state after a call: as answered, or as before where both refuse alike.
fn after(from: State, got: Result<State, Refusal>, expected: second::Answer) -> Checked<State> {
    match got {
        Ok(state) => {
            same("state", &taken(state), &(expected.regs, expected.meter))?;
            Ok(state)
        }
        Err(refusal) => {
            let number = (expected.number, expected.index);
            same("refusal", &told(refusal), &number)?;
            Ok(from)
        }
    }
}

/// A transaction; now and then too many leftover bits, or no room for the
/// output.
fn transaction(twin: &mut Twin, rng: &mut Rng, state: State) -> Checked<State> {
    let (regs, meter) = taken(state);
    let (status, awake) = (regs.status, regs.awake);
    let mut sent = generate::sensible(rng, ffi::Regs { status, awake }, 4_097);
    if rng.one_in(30) {
        sent.leftover = 8 + rng.under(248);
    }
    let room = sent.bytes.len() - usize::from(rng.one_in(50)).min(sent.bytes.len());
    let (mut out, mut mirror) = (vec![1; room], vec![1; room]);
    let (first, second) = twin.arrays();
    let got = tunebriar::transact(PART, state, lent(&sent), first, &mut out);
    let (bits, wp) = (sent.leftover, sent.wp);
    let expected = second::transact(1, regs, meter, bits, wp, second, &mut mirror, &sent.bytes);
    same("output", &out, &mirror)?;
    if let Ok((verdict, after)) = got {
        let numbers = (expected.number, expected.code);
        same("verdict", &(verdict.number(), code(verdict)), &numbers)?;
        let mut counted = state.meter;
        same("count", &counted.count(PART, verdict), &Ok(()))?;
        same("counted by the verdict", &counted, &after.meter)?;
        count(rng, verdict)?;
    }
    after(state, got.map(|(_, state)| state), expected)
}

/// A verdict counted on any meter, also a full one.
fn count(rng: &mut Rng, verdict: Verdict) -> Checked {
    let before = generate::meter(rng);
    let mut expected = meter_of(before);
    let number = second::count(1, &mut expected, verdict.number(), code(verdict));
    let mut counted = typed_meter(before);
    let got = counted.count(PART, verdict).err().map_or((0, 0), told);
    same(
        "count",
        &(got, untyped_meter(counted)),
        &((number, 0), expected),
    )
}

fn lent(sent: &Sent) -> Transaction<'_> {
    Transaction {
        bytes: &sent.bytes,
        leftover: sent.leftover as u8,
        wp_high: sent.wp != 0,
    }
}

/// The kind by its code, 0 for none.
fn code(verdict: Verdict) -> u32 {
    match verdict {
        Verdict::CarriedOut(kind) => u32::from(kind.code()),
        Verdict::Ignored(_) => 0,
    }
}

type Registered = fn(Part, Registers) -> Result<Registers, Refusal>;
type Numbered = fn(u32, second::Regs) -> second::Event;

/// An event on these registers, and on any.
fn events(rng: &mut Rng, from: Registers) -> Checked<Registers> {
    let pairs: [(Registered, Numbered); 2] = [
        (tunebriar::finish, second::finish),
        (tunebriar::power_cycle, second::power_cycle),
    ];
    let (first, second) = pairs[usize::from(rng.one_in(6))];
    let mut after = from;
    for registers in [typed(generate::wild_registers(rng)), from] {
        let expected = second(1, untyped(registers));
        let got = first(PART, registers);
        let number = got.err().map_or(0, Refusal::number);
        after = got.unwrap_or(registers);
        let numbers = (expected.number, expected.regs);
        same("event", &(number, untyped(after)), &numbers)?;
    }
    Ok(after)
}

/// The first k records of a tape, and if they are served the whole of it.
fn replay(twin: &mut Twin, rng: &mut Rng, state: State) -> Checked<State> {
    let (records, k) = (rng.below(6), rng.below(8) as u64);
    let mut tape = generate::tape(rng, records);
    if rng.one_in(3) {
        generate::damage(rng, &mut tape);
    }
    (0..records as u64 + 2).try_for_each(|place| read(&tape, place))?;
    let (first, second) = twin.arrays();
    let (regs, meter) = taken(state);
    let got = tunebriar::replay_first(PART, state, first, &tape, k);
    let expected = second::replay_first(1, regs, meter, second, &tape, k);
    let between = after(state, got, expected)?;
    let (regs, meter) = taken(between);
    let got = tunebriar::replay(PART, between, first, &tape);
    let expected = second::replay(1, regs, meter, second, &tape);
    after(between, got, expected)
}

fn read(tape: &[u8], place: u64) -> Checked {
    let expected = second::read(tape, place);
    let (kind, number) = match tunebriar::read(tape, place) {
        Read::Record(Record::Transaction(sent)) => {
            transaction_read(sent, tape, &expected)?;
            (0, 0)
        }
        Read::Record(Record::Finish) => (1, 0),
        Read::Record(Record::PowerCycle) => (2, 0),
        Read::End => (3, 0),
        Read::Fault(refusal) => (4, refusal.number()),
    };
    let numbers = (expected.kind, expected.number);
    same("kind and number", &(kind, number), &numbers)
}

fn transaction_read(sent: Transaction, tape: &[u8], expected: &second::Record) -> Checked {
    let bytes = &tape[expected.start as usize..][..expected.length as usize];
    same("bytes", &sent.bytes, &bytes)?;
    let bits = (u32::from(sent.leftover), u32::from(sent.wp_high));
    let numbers = (expected.leftover, expected.wp);
    same("leftover bits and /WP", &bits, &numbers)
}

/// A quote, and a translation into a tape of just the length quoted.
#[cfg(feature = "jobs")]
fn job(rng: &mut Rng) -> Checked {
    let mut job = crate::job_batches::any_job(rng);
    job.setting %= 256;
    let (setting, steps, payload) = (job.setting as u8, &job.steps, &job.payload);
    let expected = second::quote(1, job.setting, steps, payload);
    let got = tunebriar::quote(PART, setting, steps, payload);
    let number = got.err().map_or((0, 0), told);
    same("quote", &number, &(expected.number, expected.index))?;
    let bill = got.unwrap_or_default();
    let rises = [bill.programs, bill.erases, bill.register_writes];
    let numbers = [expected.programs, expected.erases, expected.register_writes];
    same("rises", &(rises, bill.tape), &(numbers, expected.length))?;
    let mut tape = vec![1; bill.tape as usize];
    let written = tunebriar::translate(PART, setting, steps, payload, &mut tape);
    same("translation", &written, &got.map(|bill| bill.tape))
}
