//! The edges of every number, length and pointer of a transaction, each with the
//! number that the paper gives for it, and by both emulators.

use tunebriar::ffi::{self, Lent, LentMut, Meter, Regs};

use crate::bytes::{at, program, sent};
use crate::calls::{Call, Kept, Playing};
use crate::suite::Suite;
use crate::tape_edges::expect_replay;
use crate::twin::Twin;
use crate::{Checked, FULL, SIZE, same};

const WEL: u32 = 2;
/// Part numbers that are not 1, some of which end in a byte 1.
pub const OTHER_PARTS: [u32; 7] = [0, 2, 3, 257, 65_537, 0x0100_0001, u32::MAX];

/// The edges of transactions, and those that all calls have.
pub fn run(suite: &mut Suite) {
    suite.check("edges/longest transaction", longest);
    suite.check("edges/output one short", output_one_short);
    suite.check("edges/output longer", output_longer);
    suite.check("edges/full counts", full_counts);
    suite.check("edges/counts reach the top", counts_reach_the_top);
    suite.check("edges/other parts", other_parts);
    suite.check("edges/array lengths", array_lengths);
    suite.check("edges/wide registers", wide_registers);
    suite.check("edges/leftover bits", leftover_bits);
    suite.check("edges/level of WP", level_of_wp);
    suite.check("edges/empty slices", empty_slices);
    suite.check("edges/null pointers", null_pointers);
    suite.check("edges/addresses past the chip", addresses_past_the_chip);
    suite.check("edges/long programs", long_programs);
    suite.check("edges/erases", erases);
}

/// Runs a call and asks for its number; a refusal must also hand back the
/// registers and the meter as they were.
fn expect(twin: &mut Twin, call: &Call, number: u32) -> Checked<second::Answer> {
    let answer = twin.transact(call)?;
    same(format_args!("number of {call}"), &answer.number, &number)?;
    let kept = Kept {
        regs: call.numbers.regs,
        meter: call.numbers.meter,
    };
    if (1..=7).contains(&number) {
        same("kept on a refusal", &Kept::from(answer), &kept)?;
    }
    Ok(answer)
}

/// Four counts, in the meter's order.
pub(crate) fn counts(counts: [u32; 4]) -> Meter {
    let [programs, erases, register_writes, ignored] = counts;
    Meter {
        programs,
        erases,
        register_writes,
        ignored,
    }
}

/// Four counts, all 5 but for the one at `which`.
pub(crate) fn one_count(which: usize, count: u32) -> Meter {
    let mut all = [5; 4];
    all[which] = count;
    counts(all)
}

fn longest(twin: &mut Twin) -> Checked {
    for code in [0x03, 0x0B, 0x02, 0x05, 0x35, 0x9F, 0x90, 0xAB, 0x06, 0xEE] {
        for n in [4_095, 4_096, 4_097, 4_098, 8_192, 65_536, 65_540] {
            let mut bytes = vec![0x5A; n];
            bytes[..4].copy_from_slice(&at(code, 0x12_34F0));
            let answer = twin.transact(&Call::new(Kept::awake(WEL), &bytes))?;
            same(
                format_args!("{n} bytes refused"),
                &(answer.number == 4),
                &(n > 4_096),
            )?;
        }
    }
    Ok(())
}

fn output_one_short(twin: &mut Twin) -> Checked {
    for n in [1, 2, 3, 256, 260, 4_095, 4_096] {
        for code in [0x05, 0x06, 0x9F, 0xEE] {
            let mut call = Call::new(Kept::awake(0), &vec![code; n]);
            call.out = n - 1;
            expect(twin, &call, 6)?;
            call.out = 0;
            expect(twin, &call, 6)?;
        }
    }
    Ok(())
}

fn output_longer(twin: &mut Twin) -> Checked {
    for (n, more) in [(0, 1), (1, 1), (2, 300), (4_096, 1), (4_096, 4_096)] {
        for code in [0x05, 0x03, 0xEE] {
            let mut call = Call::new(Kept::awake(0x10), &vec![code; n]);
            call.out = n + more;
            let answer = twin.transact(&call)?;
            same("refused", &(1..=7).contains(&answer.number), &false)?;
            let rest = &twin.written()[n..];
            same(
                "rest as it was",
                &rest.iter().all(|&byte| byte == rest[0]),
                &true,
            )?;
        }
    }
    Ok(())
}

fn full_counts(twin: &mut Twin) -> Checked {
    let commands = [
        vec![0x05],
        vec![0x06],
        vec![0xEE],
        vec![],
        at(0x20, 0),
        program(0, &[0]),
    ];
    for which in 0..4 {
        for bytes in &commands {
            let mut kept = Kept::awake(WEL);
            kept.meter = one_count(which, FULL);
            expect(twin, &Call::new(kept, bytes), 7)?;
            kept.meter = one_count(which, FULL - 1);
            let answer = twin.transact(&Call::new(kept, bytes))?;
            same("refused", &(answer.number == 7), &false)?;
        }
    }
    Ok(())
}

fn counts_reach_the_top(twin: &mut Twin) -> Checked {
    let commands = [program(0, &[0]), at(0x20, 0), vec![0x01, 0x00], vec![0xEE]];
    for (which, bytes) in commands.iter().enumerate() {
        let mut kept = Kept::awake(WEL);
        kept.meter = one_count(which, FULL - 1);
        let answer = twin.transact(&Call::new(kept, bytes))?;
        let reached = Kept::from(answer);
        same("the count", &reached.meter, &one_count(which, FULL))?;
        expect(twin, &Call::new(reached, bytes), 7)?;
    }
    Ok(())
}

fn other_parts(twin: &mut Twin) -> Checked {
    for part in OTHER_PARTS {
        let mut call = Call::new(Kept::awake(0), &[0x06]);
        call.numbers.part = part;
        expect(twin, &call, 1)?;
        let kept = Kept::awake(0);
        for k in [None, Some(1)] {
            let tape = sent(&[0x06]);
            let call = Playing {
                part,
                k,
                ..Playing::new(kept, &tape)
            };
            expect_replay(twin, &call, 1, 0)?;
        }
        same("finish", &twin.finish(part, kept.regs)?.number, &1)?;
        same(
            "power cycle",
            &twin.power_cycle(part, kept.regs)?.number,
            &1,
        )?;
    }
    Ok(())
}

fn array_lengths(twin: &mut Twin) -> Checked {
    for length in [0, 1, 255, 65_536, SIZE - 1, SIZE + 1, SIZE + 256] {
        let mut call = Call::new(Kept::awake(WEL), &[0xC7]);
        call.array = length;
        expect(twin, &call, 2)?;
        let tape = [sent(&[0x06]), sent(&[0xC7])].concat();
        let call = Playing {
            array: length,
            ..Playing::new(Kept::awake(0), &tape)
        };
        expect_replay(twin, &call, 2, 0)?;
    }
    Ok(())
}

fn wide_registers(twin: &mut Twin) -> Checked {
    let words = [
        0x0400,
        0x8000,
        0xFC00,
        0x1_0000,
        0x1_0002,
        0x8000_0000,
        0xFFFF_0000,
        u32::MAX,
    ];
    let wide = words.map(|status| Regs { status, awake: 1 });
    let awakes = [2, 3, 256, 257, 65_537, u32::MAX].map(|awake| Regs { status: 0, awake });
    let unfit = [(1, 1), (1, 0), (3, 0)].map(|(status, awake)| Regs { status, awake });
    for regs in wide.into_iter().chain(awakes).chain(unfit) {
        let kept = Kept {
            regs,
            ..Kept::default()
        };
        expect(twin, &Call::new(kept, &[0x05, 0]), 3)?;
        expect_replay(twin, &Playing::new(kept, &[]), 3, 0)?;
        same("finish", &twin.finish(1, regs)?.number, &3)?;
        same("power cycle", &twin.power_cycle(1, regs)?.number, &3)?;
    }
    Ok(())
}

fn leftover_bits(twin: &mut Twin) -> Checked {
    for leftover in [8, 9, 15, 255, 256, 257, 65_536, 1 << 31, u32::MAX] {
        for bytes in [&[][..], &[0x05], &[0x06]] {
            let mut call = Call::new(Kept::awake(0), bytes);
            call.numbers.leftover = leftover;
            expect(twin, &call, 5)?;
        }
    }
    for leftover in 1..8 {
        for (bytes, number) in [(&[][..], 12), (&[0x05], 0), (&[0x06], 13), (&[0xEE], 12)] {
            let mut call = Call::new(Kept::awake(0), bytes);
            call.numbers.leftover = leftover;
            expect(twin, &call, number)?;
        }
    }
    Ok(())
}

fn level_of_wp(twin: &mut Twin) -> Checked {
    for (wp, number) in [
        (0, 15),
        (1, 0),
        (2, 0),
        (256, 0),
        (65_536, 0),
        (1 << 31, 0),
        (u32::MAX, 0),
    ] {
        let mut call = Call::new(Kept::awake(0x0082), &[0x01, 0x00]);
        call.numbers.wp = wp;
        expect(twin, &call, number)?;
    }
    Ok(())
}

fn empty_slices(twin: &mut Twin) -> Checked {
    expect(twin, &Call::new(Kept::awake(0), &[]), 12)?;
    let mut call = Call::new(Kept::awake(0), &[]);
    call.array = 0;
    expect(twin, &call, 2)?;
    expect_replay(twin, &Playing::new(Kept::awake(0x0102), &[]), 0, 0)?;
    let call = Playing {
        k: Some(u64::MAX),
        ..Playing::new(Kept::awake(3), &[])
    };
    expect_replay(twin, &call, 0, 0)?;
    same("read", &twin.read(&[], 0)?.kind, &3)
}

/// A null pointer with length 0 is an empty slice.
fn null_pointers(twin: &mut Twin) -> Checked {
    let kept = Kept::awake(WEL);
    let numbers = Call::new(kept, &[]).numbers;
    let (array, _) = twin.arrays();
    let answer = ffi::transact(numbers, array.into(), LentMut::NULL, Lent::NULL);
    let ignored = Meter {
        ignored: 1,
        ..Meter::default()
    };
    let told = (answer.number, answer.index, answer.regs, answer.meter);
    same("no bytes, no output", &told, &(12, 0, kept.regs, ignored))?;
    let mut out = [7; 3];
    let answer = ffi::transact(numbers, array.into(), (&mut out[..]).into(), Lent::NULL);
    same("no bytes", &(answer.number, out), &(12, [7; 3]))?;
    let answer = ffi::transact(numbers, array.into(), LentMut::NULL, (&[0x06][..]).into());
    same("no output", &answer.number, &6)?;
    let answer = ffi::transact(numbers, LentMut::NULL, LentMut::NULL, Lent::NULL);
    same("nothing at all", &answer.number, &2)
}

fn addresses_past_the_chip(twin: &mut Twin) -> Checked {
    let data: Vec<u8> = (0..=255).collect();
    twin.set(0, &data);
    twin.set(SIZE - 256, &data);
    for high in 0..8 {
        for address in [0, 7, 0x1F_FFFF, 0x1F_FF00, 0x10_0000] {
            let address = address | high << 21;
            for code in [0x03, 0x0B, 0x90, 0x20] {
                let bytes = [&at(code, address)[..], &[0; 300]].concat();
                let n = if code == 0x20 { 4 } else { bytes.len() };
                twin.transact(&Call::new(Kept::awake(0), &bytes[..n]))?;
            }
            expect(
                twin,
                &Call::new(Kept::awake(WEL), &program(address, &[0x55])),
                0,
            )?;
        }
    }
    Ok(())
}

/// Where a place is sent twice, the last counts.
fn long_programs(twin: &mut Twin) -> Checked {
    for (offset, length) in [
        (0, 256),
        (0, 257),
        (255, 2),
        (240, 600),
        (1, 4_092),
        (255, 4_092),
    ] {
        twin.set(0x2000, &[0xFF; 512]);
        let data: Vec<u8> = (0..length).map(|k: u32| (k * 7 % 251) as u8).collect();
        expect(
            twin,
            &Call::new(Kept::awake(WEL), &program(0x2000 + offset, &data)),
            0,
        )?;
        let sent = |place: u32| (0..length).rev().find(|k| (offset + k) % 256 == place);
        let page = (0..256).map(|place| sent(place).map_or(0xFF, |k| data[k as usize]));
        let page: Vec<u8> = page.collect();
        same("the page", &&twin.array()[0x2000..0x2100], &&page[..])?;
    }
    Ok(())
}

/// An erase makes its unit FF, to the last byte, and nothing else.
fn erases(twin: &mut Twin) -> Checked {
    let units = [(0x20, 4_096), (0x52, 32_768), (0xD8, 65_536)];
    for (code, unit) in units {
        for address in [0, unit - 1, unit, 0x12_3456, SIZE - unit, SIZE - 1] {
            twin.set_all(0x3C);
            expect(
                twin,
                &Call::new(Kept::awake(WEL), &at(code, address as u32)),
                0,
            )?;
            let start = address / unit * unit;
            erased(twin, start..start + unit)?;
        }
    }
    for code in [0xC7, 0x60] {
        twin.set_all(0x3C);
        expect(twin, &Call::new(Kept::awake(WEL), &[code]), 0)?;
        erased(twin, 0..SIZE)?;
    }
    Ok(())
}

/// FF in the range, and what was there before outside.
fn erased(twin: &Twin, range: core::ops::Range<usize>) -> Checked {
    let array = twin.array();
    let inside = array[range.clone()].iter().all(|&byte| byte == 0xFF);
    let mut outside = array[..range.start].iter().chain(&array[range.end..]);
    same("FF inside", &inside, &true)?;
    same(
        "as before outside",
        &outside.all(|&byte| byte == 0x3C),
        &true,
    )
}
