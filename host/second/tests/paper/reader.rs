//! Reading, listing and replaying tapes record by record.

use crate::common::*;
use second::{Meter, Record, Regs, listing, read, replay, replay_first};

const IDLE: Regs = Regs {
    status: 0,
    awake: 1,
};

fn small_tape() -> Vec<u8> {
    [
        tape_record(0, 8 + 3, &[0x05, 0x00]),
        tape_record(1, 0, &[]),
        tape_record(2, 0, &[]),
        tape_record(0, 5, &[]),
    ]
    .concat()
}

#[test]
fn each_kind_of_record() {
    let tape = small_tape();
    let first = Record {
        kind: 0,
        number: 0,
        length: 2,
        leftover: 3,
        wp: 1,
        start: 4,
        next: 1,
    };
    assert_eq!(read(&tape, 0), first);
    for (place, kind) in [(1, 1), (2, 2)] {
        let event = Record {
            kind,
            next: place + 1,
            ..Record::default()
        };
        assert_eq!(read(&tape, place), event);
    }
    let last = Record {
        leftover: 5,
        start: 3 * 264 + 4,
        next: 4,
        ..Record::default()
    };
    assert_eq!(read(&tape, 3), last);
}

#[test]
fn the_end_stays_where_it_is() {
    for tape in [vec![], small_tape()] {
        for place in [
            4,
            5,
            u64::MAX / 264,
            u64::MAX / 264 + 1,
            u64::MAX - 1,
            u64::MAX,
        ] {
            let end = Record {
                kind: 3,
                next: place,
                ..Record::default()
            };
            assert_eq!(read(&tape, place), end);
        }
    }
    assert_eq!(read(&[], 0).kind, 3);
}

#[test]
fn a_tape_not_whole_is_at_fault_everywhere() {
    for size in [1, 263, 265, 4 * 264 - 1] {
        let tape = vec![0; size];
        for place in [0, 1, 4, u64::MAX] {
            let fault = Record {
                kind: 4,
                number: 30,
                next: place,
                ..Record::default()
            };
            assert_eq!(read(&tape, place), fault);
        }
    }
}

/// Records that are refused 31, one for each reason.
fn bad_records() -> Vec<Vec<u8>> {
    let mut bad = Vec::new();
    for length in [261u16, 0x0200, 0xFFFF] {
        let mut record = tape_record(0, 0, &[]);
        record[..2].copy_from_slice(&length.to_be_bytes());
        bad.push(record);
    }
    bad.extend([3, 4, 128, 255].map(|kind| tape_record(kind, 0, &[])));
    bad.extend([16, 24, 128, 255].map(|byte_3| tape_record(0, byte_3, &[0x06])));
    for at in [5, 6, 263] {
        let mut record = tape_record(0, 8, &[0x06]);
        record[at] = 1;
        bad.push(record);
    }
    for kind in [1, 2] {
        for at in [0, 1, 3, 4, 263] {
            let mut record = tape_record(kind, 0, &[]);
            record[at] = 1;
            bad.push(record);
        }
    }
    bad
}

#[test]
fn each_bad_record_stops_the_reading_there_alone() {
    for record in bad_records() {
        let tape = [tape_record(1, 0, &[]), record, tape_record(2, 0, &[])].concat();
        let fault = Record {
            kind: 4,
            number: 31,
            next: 1,
            ..Record::default()
        };
        assert_eq!(read(&tape, 0).kind, 1);
        assert_eq!(read(&tape, 1), fault);
        assert_eq!(read(&tape, 2).kind, 2);
        assert_eq!(read(&tape, 3).kind, 3);
        assert_eq!(listing(&tape), b"refused 31 0001\n");
        let mut array = vec![0; SIZE];
        let answer = replay(1, IDLE, Meter::default(), &mut array, &tape);
        assert_eq!((answer.number, answer.index), (31, 1));
    }
}

#[test]
fn the_longest_record_and_the_highest_byte_3() {
    let tape = tape_record(0, 15, &[0x77; 260]);
    let record = read(&tape, 0);
    assert_eq!((record.kind, record.length), (0, 260));
    assert_eq!((record.leftover, record.wp), (7, 1));
}

#[test]
fn listing_lines() {
    let tape = [
        tape_record(0, 0, &[]),
        tape_record(0, 0, &[0xab; 260]),
        tape_record(0, 8, &[0x0f; 12]),
        tape_record(1, 0, &[]),
        tape_record(2, 0, &[]),
    ]
    .concat();
    let lines = "0000 T -- 000\n0001 T AB 260\n0002 T 0F 012\n0003 F\n0004 P\n";
    assert_eq!(listing(&tape), lines.as_bytes());
    assert_eq!(listing(&[]), b"");
}

#[test]
fn the_longest_listing_and_one_record_more() {
    let tape = tape_record(1, 0, &[]).repeat(248);
    assert_eq!(tape.len(), 65_472);
    let lines = String::from_utf8(listing(&tape)).unwrap();
    assert_eq!(lines.lines().count(), 248);
    assert!(lines.ends_with("0247 F\n"));
    for size in [65_473, 65_736] {
        assert_eq!(listing(&vec![0xFF; size]), b"refused 30 0000\n");
    }
    assert_eq!(listing(&tape[1..]), b"refused 30 0000\n");
    assert_eq!(listing(&[0]), b"refused 30 0000\n");
}

#[test]
fn an_empty_tape_is_served_even_by_a_full_meter() {
    let mut array = vec![0x12; SIZE];
    let full = Meter {
        programs: FULL,
        erases: FULL,
        register_writes: FULL,
        ignored: FULL,
    };
    let regs = Regs {
        status: 0x0303,
        awake: 1,
    };
    let answer = replay(1, regs, full, &mut array, &[]);
    assert_eq!((answer.number, answer.index, answer.code), (0, 0, 0));
    assert_eq!((answer.regs, answer.meter), (regs, full));
}

#[test]
fn room_is_asked_for_every_record() {
    let mut array = vec![0; SIZE];
    let tape = [tape_record(1, 0, &[]), tape_record(2, 0, &[])].concat();
    for (programs, number) in [(FULL, 7), (FULL - 1, 7), (FULL - 2, 0)] {
        let meter = Meter {
            programs,
            ..Meter::default()
        };
        let answer = replay(1, IDLE, meter, &mut array, &tape);
        assert_eq!((answer.number, answer.meter), (number, meter));
        let none = replay_first(1, IDLE, meter, &mut array, &tape, 0);
        assert_eq!((none.number, none.meter), (number, meter));
    }
}

#[test]
fn replay_first_checks_all_and_plays_k() {
    let bad = tape_record(3, 0, &[]);
    let tape = [tape_record(0, 8, &[0x06]), bad].concat();
    let mut array = vec![0; SIZE];
    let answer = replay_first(1, IDLE, Meter::default(), &mut array, &tape, 1);
    assert_eq!((answer.number, answer.index), (31, 1));
    assert_eq!(answer.regs, IDLE);

    let tape = tape_of(0, &guard(5), &[]);
    for (k, status) in [
        (0, 0),
        (1, 2),
        (2, 0x17),
        (3, 0x14),
        (4, 0x14),
        (u64::MAX, 0x14),
    ] {
        let answer = replay_first(1, IDLE, Meter::default(), &mut array, &tape, k);
        assert_eq!((answer.number, answer.regs.status), (0, status));
        assert_eq!(answer.meter.register_writes, u32::from(k >= 2));
    }
}

#[test]
fn a_replay_may_ignore_and_still_be_served() {
    let mut array = vec![0xFF; SIZE];
    let tape = [
        tape_record(0, 3, &[]),
        tape_record(0, 8, &program(0, &[0])),
        tape_record(0, 8, &[0xB9]),
        tape_record(0, 8, &[0x05]),
        tape_record(2, 0, &[]),
    ]
    .concat();
    let answer = replay(1, IDLE, Meter::default(), &mut array, &tape);
    assert_eq!((answer.number, answer.meter.ignored), (0, 3));
    assert_eq!(answer.regs, IDLE);
    assert_eq!(array, vec![0xFF; SIZE]);
}

#[test]
fn the_pin_level_of_a_record_is_heeded() {
    let locked_by_pin = Regs {
        status: 0x0082,
        awake: 1,
    };
    let mut array = vec![0xFF; SIZE];
    for (byte_3, register_writes) in [(0, 0), (8, 1)] {
        let tape = tape_record(0, byte_3, &[0x01, 0x00]);
        let answer = replay(1, locked_by_pin, Meter::default(), &mut array, &tape);
        assert_eq!(answer.meter.register_writes, register_writes);
        assert_eq!(answer.meter.ignored, 1 - register_writes);
    }
}
