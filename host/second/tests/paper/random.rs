//! Many random jobs and transactions from fixed seeds.

use crate::common::*;
use crate::oracle;
use second::{
    Bill, Meter, Regs, finish, meaning, meaning_on_registers, power_cycle, quote, read, replay,
    replay_first, translate,
};

fn random_step(rng: &mut Rng, payload: usize) -> Vec<u8> {
    let address = rng.address();
    match rng.below(10) {
        0 => erase(3, 0),
        1..=3 => erase(rng.below(3) as u8, address),
        4..=7 => {
            let most = rng.pick(&[4, 300, 4_096]);
            let length = 1 + rng.below(most) as u32;
            lay(address, length, rng.below(payload as u64 + 1) as u32)
        }
        _ => guard(rng.below(32) as u8),
    }
}

/// A job of up to `most` steps; a step that would be turned away is left out.
fn random_job(rng: &mut Rng, setting: u32, payload: &[u8], most: u64) -> Vec<u8> {
    let mut job = Vec::new();
    for _ in 0..rng.below(most + 1) {
        let longer = [job.clone(), random_step(rng, payload.len())].concat();
        if quote(1, setting, &longer, payload).number == 0 {
            job = longer;
        }
    }
    job
}

/// Awake, idle, unlocked, at the start setting; WEL, S7 and S9 as they fall.
fn random_start(rng: &mut Rng, setting: u32) -> Regs {
    let free = WEL | 0x0080 | 0x0200;
    Regs {
        status: (setting << 2) | (rng.next() as u32 & free),
        awake: 1,
    }
}

fn rise(before: Meter, bill: Bill) -> Meter {
    Meter {
        programs: before.programs + bill.programs,
        erases: before.erases + bill.erases,
        register_writes: before.register_writes + bill.register_writes,
        ignored: before.ignored,
    }
}

#[test]
fn accepted_jobs_do_what_they_mean_and_cost_their_quote() {
    let mut rng = Rng(1);
    let original = rng.bytes(SIZE);
    for round in 0..400 {
        let setting = rng.below(32) as u32;
        let size = rng.pick(&[0, 5, 5_000, 65_536]);
        let payload = rng.bytes(size);
        let job = random_job(&mut rng, setting, &payload, 64);
        let regs = random_start(&mut rng, setting);
        let meter = Meter {
            programs: 3,
            erases: 2,
            register_writes: 1,
            ignored: 9,
        };
        let bill = quote(1, setting, &job, &payload);
        let tape = tape_of(setting, &job, &payload);
        assert_eq!(tape.len() as u64, bill.length);
        let (mut played, mut meant) = (original.clone(), original.clone());
        let answer = replay(1, regs, meter, &mut played, &tape);
        meaning(setting, &job, &payload, &mut meant);
        assert_eq!(answer.number, 0, "round {round}");
        assert_eq!(answer.meter, rise(meter, bill));
        assert_eq!(
            answer.regs,
            meaning_on_registers(setting, &job, &payload, regs)
        );
        assert!(played == meant, "round {round}");
    }
}

#[test]
fn a_replay_may_be_cut_anywhere() {
    let mut rng = Rng(2);
    let original = rng.bytes(SIZE);
    for _ in 0..40 {
        let payload = rng.bytes(2_000);
        let job = random_job(&mut rng, 0, &payload, 20);
        let tape = tape_of(0, &job, &payload);
        let regs = random_start(&mut rng, 0);
        let k = rng.below(tape.len() as u64 / 264 + 1);
        let (mut whole, mut parts) = (original.clone(), original.clone());
        let at_once = replay(1, regs, Meter::default(), &mut whole, &tape);
        let first = replay_first(1, regs, Meter::default(), &mut parts, &tape, k);
        let rest = &tape[k as usize * 264..];
        let then = replay(1, first.regs, first.meter, &mut parts, rest);
        assert_eq!(then, at_once);
        assert!(whole == parts);
    }
}

#[test]
fn spoiled_jobs_are_judged_alike_by_translator_and_quote() {
    let mut rng = Rng(3);
    let mut tape = vec![0x55; 900_000];
    for _ in 0..5_000 {
        let payload = rng.bytes(600);
        let mut job = random_job(&mut rng, 0, &payload, 8);
        if !job.is_empty() {
            let at = rng.below(job.len() as u64) as usize;
            job[at] ^= 1 << rng.below(8);
        }
        let bill = quote(1, 0, &job, &payload);
        let answer = translate(1, 0, &job, &payload, &mut tape);
        assert_eq!((answer.number, answer.index), (bill.number, bill.index));
        assert_eq!(answer.length, bill.length);
        let written = answer.length as usize;
        let rest = &tape[written..written + 1_000];
        assert!(rest.iter().all(|&byte| byte == 0x55));
        tape[..written].fill(0x55);
    }
}

#[test]
fn any_tape_can_be_read_and_replayed() {
    let mut rng = Rng(4);
    let mut array = vec![0xFF; SIZE];
    for _ in 0..2_000 {
        let mut tape = Vec::new();
        for _ in 0..rng.below(5) {
            let length = rng.below(8) as usize;
            let bytes = rng.bytes(length);
            tape.extend(match rng.below(4) {
                0 => tape_record(1, 0, &[]),
                1 => tape_record(2, 0, &[]),
                _ => tape_record(0, rng.below(16) as u8, &bytes),
            });
        }
        if !tape.is_empty() && rng.one_in(2) {
            let at = rng.below(tape.len() as u64) as usize;
            tape[at] ^= 1 << rng.below(8);
        }
        let records = tape.len() as u64 / 264;
        let bad = (0..records).find(|&place| read(&tape, place).kind == 4);
        let regs = Regs {
            status: 0,
            awake: 1,
        };
        let answer = replay(1, regs, Meter::default(), &mut array, &tape);
        let number = if bad.is_some() { 31 } else { 0 };
        assert_eq!((answer.number, answer.index), (number, bad.unwrap_or(0)));
    }
}

fn random_transaction(rng: &mut Rng) -> Vec<u8> {
    let codes = [
        0x06, 0x06, 0x06, 0x04, 0x05, 0x35, 0x01, 0x03, 0x0B, 0x02, 0x02, 0x02, 0x20, 0x52, 0xD8,
        0xC7, 0x60, 0xB9, 0xAB, 0xAB, 0x90, 0x9F,
    ];
    let code = if rng.one_in(20) {
        rng.next() as u8
    } else {
        rng.pick(&codes)
    };
    let mut bytes = at(code, rng.address() | (rng.below(8) as u32) << 21);
    let natural = match code {
        0x06 | 0x04 | 0xC7 | 0x60 | 0xB9 => 1,
        0x01 => rng.pick(&[2, 3]),
        0x20 | 0x52 | 0xD8 => 4,
        _ => rng.pick(&[1, 4, 5, 6, 8, 40, 260, 700]),
    };
    let n = if rng.one_in(10) {
        rng.below(9) as usize
    } else {
        natural
    };
    if code == 0x01 {
        // Mostly unlocked and mostly open, or nothing else would be seen.
        bytes[1] = rng.next() as u8 & rng.pick(&[0xFF, 0x7C, 0x64, 0x64]);
        bytes[2] = rng.pick(&[0, 0, 0, 0, 1, 2, 0xFC]);
    }
    bytes.extend(rng.bytes(700));
    bytes.truncate(n);
    bytes
}

/// Any well-formed registers, protected less often than not.
fn random_registers(rng: &mut Rng) -> Regs {
    let upper = rng.pick(&[0x0000, 0x0380, 0x007C, 0x03FC]);
    let (low, awake) = rng.pick(&[(0, 1), (2, 1), (2, 1), (3, 1), (0, 0), (2, 0)]);
    Regs {
        status: (rng.next() as u32 & upper) | low,
        awake,
    }
}

/// Chains of transactions and events, held against the paper's sentences.
#[test]
fn long_chains_agree_with_the_paper() {
    let mut rng = Rng(5);
    let mut seen = [0u32; 17];
    for _ in 0..40 {
        let mut host = Host::new(0);
        host.array = rng.bytes(SIZE);
        let mut array = host.array.clone();
        for _ in 0..2_000 {
            match rng.below(6) {
                0 | 1 => host.regs = finish(1, host.regs).regs,
                2 if rng.one_in(8) => host.regs = power_cycle(1, host.regs).regs,
                _ => {}
            }
            if rng.one_in(10) {
                // Else a lock of (1, 1) or a whole protection would stay.
                host.regs = random_registers(&mut rng);
            }
            host.leftover = if rng.one_in(8) {
                rng.below(8) as u32
            } else {
                0
            };
            host.wp = rng.below(2) as u32;
            let (regs, meter) = (host.regs, host.meter);
            let bytes = random_transaction(&mut rng);
            let verdict = oracle::verdict(regs, host.leftover, host.wp, &bytes);
            let (mut out, mut after) = (vec![0xFF; bytes.len()], regs);
            if verdict == 0 {
                out = oracle::output(regs, &array, &bytes);
                after = oracle::registers(regs, &bytes);
                oracle::change(&mut array, &bytes);
            }
            assert_eq!(host.verdict(&bytes), verdict, "{regs:?} {bytes:02X?}");
            assert_eq!((&host.out, host.regs), (&out, after));
            assert_eq!(host.meter, oracle::meter(meter, verdict, &bytes));
            seen[verdict as usize] += 1;
        }
        assert!(host.array == array);
    }
    let reached = |number: &usize| seen[*number] > 100;
    assert!([0, 10, 11, 13, 14, 15, 16].iter().all(reached), "{seen:?}");
}
