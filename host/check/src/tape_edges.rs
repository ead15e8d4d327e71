//! The edges of tapes: room, places, the first k records, and every way in
//! which a record can be bad.

use tunebriar::ffi::{self, Lent, LentMut};

use crate::bytes::{RECORD, at, done, finish, power_cycle, program, record, sent};
use crate::calls::{Kept, Playing};
use crate::edges::one_count;
use crate::suite::Suite;
use crate::twin::Twin;
use crate::{Checked, FULL, same};

/// Places and counts at which 264 times the place leaves 64 bits, or wraps to
/// a place that is on the tape.
pub const FAR: [u64; 10] = [
    1 << 31,
    1 << 32,
    (1 << 32) + 1,
    u64::MAX / 264,
    u64::MAX / 264 + 1,
    1 << 61,
    (1 << 61) + 1,
    1 << 63,
    u64::MAX - 1,
    u64::MAX,
];

/// The edges of replays and reads.
pub fn run(suite: &mut Suite) {
    suite.check("tapes/room", room_for_a_tape);
    suite.check("tapes/null pointers", null_pointers);
    suite.check("tapes/far places", far_places);
    suite.check("tapes/first k", first_k);
    suite.check("tapes/heads of a record", heads_of_a_record);
    suite.check("tapes/tails of a record", tails_of_a_record);
    suite.check("tapes/not whole", tapes_not_whole);
}

/// Runs a replay and asks for its number and index; a refusal must also hand
/// back the registers and the meter as they were.
pub(crate) fn expect_replay(twin: &mut Twin, call: &Playing, number: u32, index: u64) -> Checked {
    let answer = twin.replay(call)?;
    let told = (answer.number, answer.index);
    same(
        format_args!("number and index of {call}"),
        &told,
        &(number, index),
    )?;
    if number != 0 {
        same("kept on a refusal", &Kept::from(answer), &call.kept)?;
    }
    Ok(())
}

fn room_for_a_tape(twin: &mut Twin) -> Checked {
    let tape = [done(&at(0x20, 0)), power_cycle(), sent(&[0x05, 0])].concat();
    let records = 5;
    for which in 0..4 {
        for (count, number) in [(FULL - records, 0), (FULL - records + 1, 7), (FULL, 7)] {
            let mut kept = Kept::awake(0);
            kept.meter = one_count(which, count);
            for k in [None, Some(0), Some(1), Some(u64::MAX)] {
                expect_replay(
                    twin,
                    &Playing {
                        k,
                        ..Playing::new(kept, &tape)
                    },
                    number,
                    0,
                )?;
            }
        }
        let mut kept = Kept::awake(0);
        kept.meter = one_count(which, FULL);
        expect_replay(twin, &Playing::new(kept, &[]), 0, 0)?;
    }
    Ok(())
}

/// A null pointer with length 0 is an empty tape, or an array of no bytes.
fn null_pointers(twin: &mut Twin) -> Checked {
    let Kept { regs, meter } = Kept::awake(2);
    let (array, _) = twin.arrays();
    let answer = ffi::replay(1, regs, meter, array.into(), Lent::NULL);
    let told = (answer.number, answer.index, answer.regs, answer.meter);
    same("no tape", &told, &(0, 0, regs, meter))?;
    let answer = ffi::replay_first(1, regs, meter, array.into(), Lent::NULL, 3);
    let told = (answer.number, answer.regs);
    same("no tape, first 3", &told, &(0, regs))?;
    let answer = ffi::replay(1, regs, meter, LentMut::NULL, Lent::NULL);
    same("no array", &answer.number, &2)?;
    let end = ffi::Record {
        kind: 3,
        next: 9,
        ..ffi::Record::default()
    };
    same("read", &ffi::read(Lent::NULL, 9), &end)
}

fn far_places(twin: &mut Twin) -> Checked {
    let good = [sent(&[0x06]), finish(), power_cycle(), record(0, 15, &[])].concat();
    let mut bad = good.clone();
    bad[2] = 3;
    let tapes = [&[][..], &good, &bad, &good[..263], &good[..265], &[0; 1]];
    for tape in tapes {
        let records = (tape.len() / RECORD) as u64;
        let near = 0..records + 3;
        for place in near.chain(FAR) {
            let read = twin.read(tape, place)?;
            let stays = read.kind > 2;
            same("next", &read.next, &(if stays { place } else { place + 1 }))?;
        }
    }
    let kinds = [0, 1, 2, 0, 3].into_iter().zip(0..);
    kinds
        .into_iter()
        .try_for_each(|(kind, place)| same("kind", &twin.read(&good, place)?.kind, &kind))
}

fn first_k(twin: &mut Twin) -> Checked {
    let work = [
        done(&program(0x10, &[0x0F; 256])),
        done(&[0x01, 0x04, 0x02]),
    ]
    .concat();
    let tape = [
        work,
        done(&at(0x20, 0x1F_F000)),
        power_cycle(),
        sent(&[0xB9]),
    ]
    .concat();
    let records = (tape.len() / RECORD) as u64;
    for k in (0..records + 3).chain(FAR) {
        twin.set(0, &[0xFF; 512]);
        expect_replay(
            twin,
            &Playing {
                k: Some(k),
                ..Playing::new(Kept::awake(0x80), &tape)
            },
            0,
            0,
        )?;
    }
    let bad = [tape, record(3, 0, &[])].concat();
    for k in [0, 1, records, u64::MAX] {
        let call = Playing {
            k: Some(k),
            ..Playing::new(Kept::awake(0), &bad)
        };
        expect_replay(twin, &call, 31, records)?;
    }
    Ok(())
}

/// A record between two good ones, by a replay and by a read.
fn one_record(twin: &mut Twin, record: &[u8], bad: bool) -> Checked {
    let tape = [&sent(&[0x06]), record, &finish()].concat();
    let (number, index) = if bad { (31, 1) } else { (0, 0) };
    expect_replay(twin, &Playing::new(Kept::awake(0), &tape), number, index)?;
    same("read", &twin.read(&tape, 1)?.number, &number)
}

/// The head of a record: length, kind and byte 3, bad and just good.
fn heads_of_a_record(twin: &mut Twin) -> Checked {
    for length in [0, 1, 255, 256, 259, 260, 261, 262, 511, 512, 65_535_u16] {
        let mut bytes = record(0, 8, &[]);
        bytes[..2].copy_from_slice(&length.to_be_bytes());
        one_record(twin, &bytes, length > 260)?;
        bytes[RECORD - 1] = 1;
        one_record(twin, &bytes, length != 260)?;
    }
    for byte in 0..=255 {
        one_record(twin, &record(byte, 0, &[]), byte > 2)?;
        one_record(twin, &record(0, byte, &[0x05, 0]), byte > 15)?;
        one_record(twin, &record(1, byte, &[]), byte > 0)?;
        one_record(twin, &record(2, byte, &[]), byte > 0)?;
    }
    Ok(())
}

/// One byte that is not 0, at every place of a record of every kind.
fn tails_of_a_record(twin: &mut Twin) -> Checked {
    for place in (0..RECORD).filter(|&place| place != 2) {
        for kind in [1, 2] {
            let mut bytes = record(kind, 0, &[]);
            bytes[place] = 0x80;
            one_record(twin, &bytes, true)?;
        }
    }
    for place in 4..RECORD {
        for length in [0, 1, 130, 259, 260] {
            let mut bytes = record(0, 0, &vec![0; length]);
            bytes[place] = 0x80;
            one_record(twin, &bytes, place >= 4 + length)?;
        }
    }
    Ok(())
}

fn tapes_not_whole(twin: &mut Twin) -> Checked {
    let tape = [done(&at(0x20, 0)), record(9, 9, &[9])].concat();
    for length in [1, 4, 263, 265, 527, 529, 1_055] {
        for k in [None, Some(0), Some(u64::MAX)] {
            let call = Playing {
                k,
                ..Playing::new(Kept::awake(0), &tape[..length])
            };
            expect_replay(twin, &call, 30, 0)?;
        }
        for place in [0, 1, 4, u64::MAX] {
            let read = twin.read(&tape[..length], place)?;
            same(
                "read",
                &(read.kind, read.number, read.next),
                &(4, 30, place),
            )?;
        }
    }
    Ok(())
}
