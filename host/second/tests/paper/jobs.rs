//! Tapes of jobs, record for record, and what they do.

use crate::common::*;
use second::{Bill, Meter, Regs, meaning, meaning_on_registers, quote, replay, translate};

/// The three records of one thing done.
fn done(command: &[u8]) -> Vec<u8> {
    [
        tape_record(0, 8, &[0x06]),
        tape_record(0, 8, command),
        tape_record(1, 0, &[]),
    ]
    .concat()
}

#[test]
fn erases_go_out_as_the_job_has_them() {
    for (which, code) in [(0, 0x20), (1, 0x52), (2, 0xD8)] {
        let expected = done(&[code, 0x12, 0x34, 0x56]);
        assert_eq!(tape_of(0, &erase(which, 0x12_3456), &[]), expected);
    }
    assert_eq!(tape_of(0, &erase(3, 0), &[]), done(&[0xC7]));
}

#[test]
fn a_guard_sends_four_times_its_setting() {
    for setting in 0..32 {
        let expected = done(&[0x01, 4 * setting, 0x00]);
        assert_eq!(tape_of(0, &guard(setting), &[]), expected);
    }
}

#[test]
fn a_lay_is_cut_at_page_ends() {
    let payload: Vec<u8> = (0..=255).cycle().take(1_000).collect();
    let tape = tape_of(0, &lay(0x00_12F0, 300, 100), &payload);
    let expected = [
        done(&program(0x00_12F0, &payload[100..116])),
        done(&program(0x00_1300, &payload[116..372])),
        done(&program(0x00_1400, &payload[372..400])),
    ];
    assert_eq!(tape, expected.concat());
}

#[test]
fn the_longest_tape() {
    let job = lay(255, 4_096, 0).repeat(64);
    let payload = vec![0xFF; 4_096];
    let bill = quote(1, 0, &job, &payload);
    let expected = Bill {
        programs: 64 * 17,
        length: 64 * 17 * 792,
        ..Bill::default()
    };
    assert_eq!(bill, expected);
    assert_eq!(tape_of(0, &job, &payload).len() as u64, bill.length);
}

#[test]
fn an_empty_job_is_an_empty_tape() {
    let answer = translate(1, 31, &[], &[], &mut []);
    assert_eq!((answer.number, answer.index, answer.length), (0, 0, 0));
    let regs = Regs {
        status: 0x02FE,
        awake: 1,
    };
    assert_eq!(meaning_on_registers(31, &[], &[], regs), regs);
}

#[test]
fn a_tape_buffer_one_short() {
    let mut tape = vec![0x55; 791];
    let answer = translate(1, 0, &guard(1), &[], &mut tape);
    assert_eq!((answer.number, answer.index, answer.length), (26, 0, 0));
    assert_eq!(tape, vec![0x55; 791]);
    assert_eq!(translate(1, 0, &guard(1), &[], &mut []).number, 26);
}

#[test]
fn a_job_with_guards_does_what_it_means() {
    let payload = [0x0F, 0xF0, 0x55, 0xAA];
    let job = [
        guard(0),
        erase(1, 0x1F_8123),
        guard(17),
        lay(0x1F_EFFE, 2, 1),
        guard(24 + 1),
        lay(0x1F_FFFC, 4, 0),
        guard(3),
    ]
    .concat();
    let start = 7;
    let regs = Regs {
        status: start << 2 | 0x0282,
        awake: 1,
    };
    let mut array = vec![0x3C; SIZE];
    let mut meant = array.clone();
    let answer = replay(
        1,
        regs,
        Meter::default(),
        &mut array,
        &tape_of(start, &job, &payload),
    );
    meaning(start, &job, &payload, &mut meant);
    assert_eq!(answer.number, 0);
    assert_eq!(array, meant);
    assert_eq!(array[0x1F_EFFE..][..2], [0xF0, 0x55]);
    assert_eq!(array[0x1F_FFFC..], payload);
    assert_eq!(answer.regs.status, 3 << 2);
    assert_eq!(
        answer.regs,
        meaning_on_registers(start, &job, &payload, regs)
    );
    let expected = Meter {
        programs: 2,
        erases: 1,
        register_writes: 4,
        ignored: 0,
    };
    assert_eq!(answer.meter, expected);
}

#[test]
fn a_lay_is_old_and_payload() {
    let mut array = vec![0xF0; SIZE];
    meaning(0, &lay(5, 2, 0), &[0x3C, 0xFF], &mut array);
    assert_eq!(array[4..8], [0xF0, 0x30, 0xF0, 0xF0]);
}

#[test]
fn without_a_guard_the_other_bits_stay() {
    let regs = Regs {
        status: 0x0282,
        awake: 1,
    };
    let job = erase(0, 0);
    let mut array = vec![0; SIZE];
    let tape = tape_of(0, &job, &[]);
    let answer = replay(1, regs, Meter::default(), &mut array, &tape);
    assert_eq!(answer.regs.status, 0x0280);
    assert_eq!(answer.regs, meaning_on_registers(0, &job, &[], regs));
}

#[test]
fn a_job_turned_away_means_nothing() {
    let mut array = vec![0; SIZE];
    meaning(1, &erase(0, 0x1F_F000), &[], &mut array);
    assert_eq!(array, vec![0; SIZE]);
    meaning(0, &erase(0, 0), &[], &mut array[1..]);
    assert_eq!(array, vec![0; SIZE]);
    let regs = Regs {
        status: 2,
        awake: 1,
    };
    assert_eq!(meaning_on_registers(32, &guard(1), &[], regs), regs);
}
