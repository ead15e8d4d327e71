//! The meter by itself: the edges of all that it is brought up to date by, each
//! with what the paper gives for it, and hostile calls.

use tunebriar::ffi::Meter;

use crate::batches::Plan;
use crate::calls::Counting;
use crate::edges::{OTHER_PARTS, counts, one_count};
use crate::generate;
use crate::rng::Rng;
use crate::suite::Suite;
use crate::twin::Twin;
use crate::{Checked, FULL, same};

/// Random calls, most of them with something wild.
pub const PLAN: Plan = Plan::new("counts", 20, hostile);

/// A meter with room, all counts different.
const SOME: Meter = Meter {
    programs: 11,
    erases: 22,
    register_writes: 33,
    ignored: 44,
};

/// An answer and a first byte that raise each of the four counts.
const RAISING: [(u32, u32); 4] = [(0, 0x02), (0, 0x60), (0, 0x01), (10, 0xEE)];

/// Answers past the paper's, most of which end in a byte that counts: 0, or 10 to 16.
const WIDE_NUMBERS: [u32; 7] = [255, 256, 266, 272, 65_536, 0x8000_000C, u32::MAX];

/// First bytes that are none, most of which end in a byte that counts.
const WIDE_OPS: [u32; 10] = [
    0x100,
    0x101,
    0x102,
    0x120,
    0x160,
    0x1_0002,
    0x1_00C7,
    0x0100_0052,
    0x8000_00D8,
    u32::MAX,
];

/// The edges of a count.
pub fn run(suite: &mut Suite) {
    suite.check("counts/accepted", accepted);
    suite.check("counts/ignored", ignored);
    suite.check("counts/nothing else", nothing_else);
    suite.check("counts/numbers and ops", numbers_and_ops);
    suite.check("counts/full counts", full_counts);
    suite.check("counts/reach the top", reach_the_top);
    suite.check("counts/other parts", other_parts);
}

/// A count, with the number and the meter that it must come to.
fn expect(twin: &mut Twin, call: Counting, number: u32, after: Meter) -> Checked {
    let counted = twin.count(call)?;
    same(format_args!("{call}"), &counted, &(number, after))
}

fn counting(meter: Meter, (number, op): (u32, u32)) -> Counting {
    Counting {
        part: 1,
        meter,
        number,
        op,
    }
}

/// [`SOME`] with one more at one of its counts.
fn one_more(which: usize) -> Meter {
    let mut all = [
        SOME.programs,
        SOME.erases,
        SOME.register_writes,
        SOME.ignored,
    ];
    all[which] += 1;
    counts(all)
}

fn accepted(twin: &mut Twin) -> Checked {
    for (which, ops) in [
        (0, &[0x02][..]),
        (1, &[0x20, 0x52, 0xD8, 0xC7, 0x60]),
        (2, &[0x01]),
    ] {
        for &op in ops {
            expect(twin, counting(SOME, (0, op)), 0, one_more(which))?;
        }
    }
    Ok(())
}

fn ignored(twin: &mut Twin) -> Checked {
    for number in 10..=16 {
        for op in (0..=255).chain(WIDE_OPS) {
            expect(twin, counting(SOME, (number, op)), 0, one_more(3))?;
        }
    }
    Ok(())
}

/// Accepted, but no write; wide; refused; or no answer of the library.
fn nothing_else(twin: &mut Twin) -> Checked {
    let others = [
        0x00, 0x03, 0x04, 0x05, 0x06, 0x0B, 0x21, 0x35, 0x90, 0x9F, 0xAB, 0xB9, 0xFF,
    ];
    for op in others.into_iter().chain(WIDE_OPS) {
        expect(twin, counting(SOME, (0, op)), 0, SOME)?;
    }
    for number in (1..=9).chain(17..=40).chain(WIDE_NUMBERS) {
        for op in [0x01, 0x02, 0x20, 0x60, 0xEE] {
            expect(twin, counting(SOME, (number, op)), 0, SOME)?;
        }
    }
    Ok(())
}

/// Meters with each count full, one below and elsewhere, and one with room.
fn meters() -> Vec<Meter> {
    let counts = [0, 1, FULL - 1, FULL];
    let one = |which| counts.map(|count| one_count(which, count));
    (0..4).flat_map(one).chain([SOME]).collect()
}

/// Every number up to 40 and every byte, and wide ones, by some meters.
fn numbers_and_ops(twin: &mut Twin) -> Checked {
    for meter in meters() {
        for number in (0..=40).chain(WIDE_NUMBERS) {
            for op in (0..=255).chain(WIDE_OPS) {
                for part in [0, 1, 2, 257, u32::MAX] {
                    twin.count(Counting {
                        part,
                        meter,
                        number,
                        op,
                    })?;
                }
            }
        }
    }
    Ok(())
}

/// A full count refuses, whether or not it would rise.
fn full_counts(twin: &mut Twin) -> Checked {
    for which in 0..4 {
        let full = one_count(which, FULL);
        for told in RAISING.into_iter().chain([(0, 0x06), (6, 0x02), (40, 0)]) {
            expect(twin, counting(full, told), 7, full)?;
            let below = one_count(which, FULL - 1);
            same("refused", &twin.count(counting(below, told))?.0, &0)?;
        }
    }
    Ok(())
}

fn reach_the_top(twin: &mut Twin) -> Checked {
    for (which, told) in RAISING.into_iter().enumerate() {
        let (below, full) = (one_count(which, FULL - 1), one_count(which, FULL));
        expect(twin, counting(below, told), 0, full)?;
        expect(twin, counting(full, told), 7, full)?;
    }
    Ok(())
}

fn other_parts(twin: &mut Twin) -> Checked {
    for part in OTHER_PARTS {
        for meter in meters() {
            for told in RAISING {
                let call = Counting {
                    part,
                    ..counting(meter, told)
                };
                expect(twin, call, 1, meter)?;
            }
        }
    }
    Ok(())
}

fn hostile(twin: &mut Twin, rng: &mut Rng) -> Checked {
    for _ in 0..20_000 {
        let told = (number(rng), op(rng));
        let call = Counting {
            part: generate::part(rng, 12),
            ..counting(generate::meter(rng), told)
        };
        twin.count(call)?;
    }
    Ok(())
}

/// An answer: carried out, ignored, near those, or anything.
fn number(rng: &mut Rng) -> u32 {
    match rng.below(6) {
        0 | 1 => 0,
        2 => 10 + rng.under(7),
        3 => rng.under(41),
        4 => rng.pick(&WIDE_NUMBERS),
        _ => rng.word(),
    }
}

/// A first byte: one that counts, any, one with a bit past the byte, or anything.
fn op(rng: &mut Rng) -> u32 {
    let counts = rng.pick(&[0x02, 0x20, 0x52, 0xD8, 0xC7, 0x60, 0x01]);
    match rng.below(6) {
        0..3 => counts,
        3 => rng.under(256),
        4 => counts | 1 << (8 + rng.under(24)),
        _ => rng.word(),
    }
}
