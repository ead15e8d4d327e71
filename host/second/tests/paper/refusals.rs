//! Every refusal, alone and in company: of several that are due, the first in
//! document 01's order is given, and nothing that was lent changes.

use crate::common::*;
use second::{Bill, Meter, Regs, Tape, finish, power_cycle, quote, replay, transact, translate};

const MARKED: Meter = Meter {
    programs: 11,
    erases: 22,
    register_writes: 33,
    ignored: 44,
};

/// Bit k of a choice puts in the k-th fault of `order`.
fn chosen(order: &[u32], choice: u32) -> impl Fn(u32) -> bool {
    let chosen: Vec<u32> = order
        .iter()
        .enumerate()
        .filter(|&(k, _)| choice >> k & 1 == 1)
        .map(|(_, &number)| number)
        .collect();
    move |number| chosen.contains(&number)
}

fn first_due(order: &[u32], due: impl Fn(u32) -> bool) -> u32 {
    let mut in_order = order.iter().copied();
    in_order.find(|&number| due(number)).unwrap_or(0)
}

#[test]
fn a_transaction_checks_1_to_7_in_order() {
    let order = [1, 2, 3, 4, 5, 6, 7];
    let mut array = vec![0x5A; SIZE];
    for choice in 0..1 << order.len() {
        let due = chosen(&order, choice);
        let part = if due(1) { 257 } else { 1 };
        let size = if due(2) { SIZE - 1 } else { SIZE };
        let status = if due(3) { 0x0401 } else { 2 };
        let regs = Regs { status, awake: 1 };
        let n = if due(4) { 4_097 } else { 4_096 };
        let leftover = if due(5) { 256 } else { 0 };
        let mut out = vec![0x55; if due(6) { n - 1 } else { n + 3 }];
        let mut meter = MARKED;
        meter.register_writes = if due(7) { FULL } else { FULL - 1 };
        let mut bytes = program(0, &[]);
        bytes.resize(n, 0xFF);
        let lent = &mut array[..size];
        let answer = transact(part, regs, meter, leftover, 1, lent, &mut out, &bytes);
        assert_eq!(answer.number, first_due(&order, &due), "{choice:07b}");
        assert_eq!(answer.index, 0);
        if answer.number != 0 {
            assert_eq!((answer.regs, answer.meter, answer.code), (regs, meter, 0));
            assert!(out.iter().all(|&byte| byte == 0x55));
        }
    }
    assert_eq!(array, vec![0x5A; SIZE]);
}

#[test]
fn a_replay_checks_1_2_3_30_31_7_in_order() {
    let order = [1, 2, 3, 30, 31, 7];
    let mut array = vec![0x5A; SIZE];
    for choice in 0..1 << order.len() {
        let due = chosen(&order, choice);
        let part = if due(1) { 0 } else { 1 };
        let size = if due(2) { SIZE - 1 } else { SIZE };
        let awake = if due(3) { 2 } else { 1 };
        let regs = Regs { status: 0, awake };
        let mut meter = MARKED;
        meter.erases = if due(7) { FULL - 2 } else { FULL - 3 };
        let mut tape = [tape_record(0, 8, &[0x06]), tape_record(0, 8, &[0x01, 4])].concat();
        tape.extend(tape_record(if due(31) { 3 } else { 1 }, 0, &[]));
        if due(30) {
            tape.push(0);
        }
        let answer = replay(part, regs, meter, &mut array[..size], &tape);
        assert_eq!(answer.number, first_due(&order, &due), "{choice:06b}");
        assert_eq!(answer.index, if answer.number == 31 { 2 } else { 0 });
        if answer.number != 0 {
            assert_eq!((answer.regs, answer.meter), (regs, meter));
        }
    }
    assert_eq!(array, vec![0x5A; SIZE]);
}

#[test]
fn a_translation_checks_1_20_21_then_the_step_then_26() {
    let order = [1, 20, 21, 22, 23, 24, 25, 26];
    for choice in 0..1u32 << order.len() {
        let due = chosen(&order, choice);
        let part = if due(1) { u32::MAX } else { 1 };
        let setting = match (due(21), due(25)) {
            (true, _) => 256,
            (false, true) => 1,
            (false, false) => 0,
        };
        let length = if due(23) { 4_097 } else { 1 };
        let offset = if due(24) { 5 } else { 4 };
        let mut job = [erase(0, 0), lay(0x1F_FFFF, length, offset)].concat();
        job[16 + 3] = u8::from(due(22));
        if due(20) {
            job.push(0);
        }
        let mut tape = vec![0x55; if due(26) { 1_583 } else { 1_584 }];
        let answer = translate(part, setting, &job, &[9; 5], &mut tape);
        let number = first_due(&order, &due);
        let index = u64::from((22..=25).contains(&number));
        let length = if number == 0 { 1_584 } else { 0 };
        let expected = Tape {
            number,
            index,
            length,
        };
        assert_eq!(answer, expected, "{choice:08b}");
        assert_eq!(number != 0, tape.iter().all(|&byte| byte == 0x55));
        let bill = quote(part, setting, &job, &[9; 5]);
        let but_26 = if number == 26 { 0 } else { number };
        assert_eq!((bill.number, bill.index), (but_26, index));
    }
}

#[test]
fn events_check_1_and_3() {
    let good = Regs {
        status: 0,
        awake: 1,
    };
    let bad = Regs {
        status: 1,
        awake: 0,
    };
    for event in [finish, power_cycle] {
        for part in [0, 2, 257, u32::MAX] {
            for regs in [good, bad] {
                let answer = event(part, regs);
                assert_eq!((answer.number, answer.index, answer.regs), (1, 0, regs));
            }
        }
        let answer = event(1, bad);
        assert_eq!((answer.number, answer.index, answer.regs), (3, 0, bad));
        assert_eq!(event(1, good).number, 0);
    }
}

#[test]
fn part_numbers_are_judged_at_full_width() {
    for part in [0, 2, 257, 65_537, 0x0100_0001, u32::MAX] {
        let mut host = Host::new(0);
        host.part = part;
        assert_eq!(host.verdict(&[0x06]), 1);
        let (regs, meter) = (host.regs, host.meter);
        assert_eq!(replay(part, regs, meter, &mut host.array, &[]).number, 1);
        assert_eq!(translate(part, 0, &[], &[], &mut []).number, 1);
        assert_eq!(quote(part, 0, &[], &[]).number, 1);
    }
}

#[test]
fn arrays_of_other_sizes() {
    for size in [0, 1, SIZE - 1, SIZE + 1, 2 * SIZE] {
        let mut host = Host::new(0);
        host.array = vec![0; size];
        assert_eq!(host.verdict(&[0x06]), 2);
        let (regs, meter) = (host.regs, host.meter);
        assert_eq!(replay(1, regs, meter, &mut host.array, &[]).number, 2);
    }
}

#[test]
fn registers_that_are_not_well_formed() {
    for (status, awake) in [
        (0x0400, 1),
        (0x8000, 1),
        (0x1_0000, 1),
        (u32::MAX, 1),
        (1, 1),
        (3, 0),
        (0, 2),
        (0, 256),
        (0, 257),
        (0, u32::MAX),
    ] {
        let mut host = Host::new(status);
        host.regs.awake = awake;
        let regs = host.regs;
        assert_eq!(host.verdict(&[0x05]), 3);
        assert_eq!(host.regs, regs);
        assert_eq!(finish(1, regs).number, 3);
        assert_eq!(power_cycle(1, regs).number, 3);
        let meter = host.meter;
        assert_eq!(replay(1, regs, meter, &mut host.array, &[]).number, 3);
    }
}

#[test]
fn leftover_bits_are_judged_at_full_width() {
    for leftover in [8, 255, 256, 65_536, u32::MAX] {
        let mut host = Host::new(0);
        host.leftover = leftover;
        assert_eq!(host.verdict(&[0x05]), 5);
        assert_eq!(host.verdict(&[]), 5);
    }
}

#[test]
fn jobs_and_payloads_of_bad_size() {
    let steps = |count: usize| erase(0, 0).repeat(count);
    let mut tape = vec![0; 64 * 792];
    let mut number = |job: &[u8], payload: &[u8]| translate(1, 0, job, payload, &mut tape).number;
    assert_eq!(number(&steps(64), &[]), 0);
    assert_eq!(number(&steps(65), &[]), 20);
    assert_eq!(number(&steps(64)[1..], &[]), 20);
    assert_eq!(number(&[0], &[]), 20);
    assert_eq!(number(&steps(1), &[0; 65_536]), 0);
    assert_eq!(number(&steps(1), &[0; 65_537]), 20);
    assert_eq!(number(&[], &[0; 65_537]), 20);
}

#[test]
fn start_settings_are_judged_at_full_width() {
    for setting in 0..32 {
        assert_eq!(translate(1, setting, &[], &[], &mut []), Tape::default());
        assert_eq!(quote(1, setting, &[], &[]), Bill::default());
    }
    for setting in [32, 255, 256, 257, 65_536, u32::MAX] {
        assert_eq!(translate(1, setting, &[], &[], &mut []).number, 21);
        assert_eq!(quote(1, setting, &[], &[]).number, 21);
    }
}

#[test]
fn every_byte_outside_the_rules_is_22() {
    let payload = [0; 16];
    let free = |kind: u8, at: usize| match kind {
        1 => (4..8).contains(&at),
        2 => at >= 4,
        _ => false,
    };
    for record in [erase(0, 0), lay(0, 1, 0), guard(0)] {
        let kind = record[0];
        for at in (2..16).filter(|&at| !free(kind, at)) {
            for value in [1, 128, 255] {
                let mut job = record.clone();
                job[at] = value;
                assert_eq!(quote(1, 0, &job, &payload).number, 22);
            }
        }
        for at in (4..16).filter(|&at| free(kind, at)) {
            let mut job = record.clone();
            job[at] = 255;
            assert_ne!(quote(1, 0, &job, &payload).number, 22);
        }
    }
}

#[test]
fn byte_1_of_each_kind() {
    for value in 0..=255 {
        let number = |mut job: Vec<u8>| {
            job[1] = value;
            quote(1, 0, &job, &[0]).number
        };
        assert_eq!(number(erase(0, 0)), if value <= 3 { 0 } else { 22 });
        assert_eq!(number(lay(0, 1, 0)), if value == 0 { 0 } else { 22 });
        assert_eq!(number(guard(0)), if value <= 31 { 0 } else { 22 });
        let mut kind = vec![0; 16];
        kind[0] = value;
        let expected = match value {
            1 | 3 => 0,
            2 => 23,
            _ => 22,
        };
        assert_eq!(quote(1, 0, &kind, &[0]).number, expected);
    }
}

#[test]
fn figures_off_the_chip_are_23() {
    let payload = vec![0; 8_192];
    let number = |job: &[u8]| quote(1, 0, job, &payload).number;
    let size = SIZE as u32;
    for which in 0..3 {
        assert_eq!(number(&erase(which, size - 1)), 0);
        assert_eq!(number(&erase(which, size)), 23);
        assert_eq!(number(&erase(which, u32::MAX)), 23);
    }
    assert_eq!(number(&erase(3, 0)), 0);
    assert_eq!(number(&erase(3, 1)), 23);
    assert_eq!(number(&erase(3, size)), 23);
    assert_eq!(number(&lay(0, 0, 0)), 23);
    assert_eq!(number(&lay(0, 4_096, 0)), 0);
    assert_eq!(number(&lay(0, 4_097, 0)), 23);
    assert_eq!(number(&lay(size - 4_096, 4_096, 0)), 0);
    assert_eq!(number(&lay(size - 4_095, 4_096, 0)), 23);
    assert_eq!(number(&lay(size, 1, 0)), 23);
    assert_eq!(number(&lay(u32::MAX, 1, 0)), 23);
    assert_eq!(number(&lay(u32::MAX, u32::MAX, u32::MAX)), 23);
}

#[test]
fn spans_outside_the_payload_are_24() {
    let number = |length, offset, payload: usize| {
        quote(1, 0, &lay(0, length, offset), &vec![0; payload]).number
    };
    assert_eq!(number(4, 0, 4), 0);
    assert_eq!(number(4, 1, 4), 24);
    assert_eq!(number(1, 0, 0), 24);
    assert_eq!(number(4_096, 61_440, 65_536), 0);
    assert_eq!(number(4_096, 61_441, 65_536), 24);
    assert_eq!(number(1, u32::MAX, 65_536), 24);
    assert_eq!(number(4_096, u32::MAX - 4_095, 65_536), 24);
}

#[test]
fn an_earlier_step_is_refused_first() {
    let bad_22 = vec![9; 16];
    let protected = lay(0x1F_FFFF, 1, 0);
    let job = [erase(0, 0), protected.clone(), bad_22.clone()].concat();
    let bill = quote(1, 1, &job, &[0]);
    assert_eq!((bill.number, bill.index), (25, 1));
    let job = [erase(0, 0), bad_22, protected].concat();
    let bill = quote(1, 1, &job, &[0]);
    assert_eq!((bill.number, bill.index), (22, 1));
}

#[test]
fn twenty_five_is_judged_at_that_step() {
    let top = erase(0, 0x1F_F000);
    let number = |start, steps: &[Vec<u8>]| {
        let bill = quote(1, start, &steps.concat(), &[]);
        (bill.number, bill.index)
    };
    assert_eq!(number(1, &[guard(0), top.clone()]), (0, 0));
    assert_eq!(number(0, &[top.clone(), guard(1), top.clone()]), (25, 2));
    assert_eq!(number(0, &[guard(1), guard(9), top.clone()]), (0, 0));
    assert_eq!(number(7, &[guard(31), guard(0), top]), (0, 0));
}

#[test]
fn the_last_of_64_steps_has_index_63() {
    let job = [erase(0, 0).repeat(63), erase(4, 0)].concat();
    let bill = quote(1, 0, &job, &[]);
    assert_eq!((bill.number, bill.index), (22, 63));
}
