//! The edges of jobs, translated and quoted by both, each with the number that
//! the paper gives for it.

use tunebriar::ffi::{self, Lent, LentMut};

use crate::bytes::{erase, guard, lay};
use crate::calls::Job;
use crate::edges::OTHER_PARTS;
use crate::orders::Due;
use crate::suite::Suite;
use crate::twin::Twin;
use crate::{Checked, SIZE, same};

/// The edges of jobs.
pub fn run(suite: &mut Suite) {
    suite.check("jobs/sizes", sizes);
    suite.check("jobs/wide numbers", wide_numbers);
    suite.check("jobs/null pointers", null_pointers);
    suite.check("jobs/bytes outside the rules", bytes_outside_the_rules);
    suite.check("jobs/figures off the chip", figures_off_the_chip);
    suite.check("jobs/spans of the payload", spans_of_the_payload);
    suite.check("jobs/protected at that step", protected_at_that_step);
    suite.check("jobs/tape buffers", tape_buffers);
    suite.check("jobs/order of checks", order);
    suite.check("jobs/settings and borders", settings_and_borders);
}

fn job(setting: u32, steps: &[u8], payload: usize) -> Job {
    Job {
        part: 1,
        setting,
        steps: steps.to_vec(),
        payload: (0..payload).map(|k| (k * 5 % 256) as u8).collect(),
        tape: 60_000,
    }
}

/// Both by translation and by quote; 26 is for the translation alone.
fn expect(twin: &mut Twin, job: &Job, number: u32, index: u64) -> Checked {
    let answer = twin.translate(job)?;
    let told = (answer.number, answer.index);
    same(
        format_args!("number and index of {job}"),
        &told,
        &(number, index),
    )?;
    let bill = twin.quote(job)?;
    let but_26 = if number == 26 { 0 } else { number };
    same("quote", &(bill.number, bill.index), &(but_26, index))?;
    if number == 0 {
        same("length and quote", &answer.length, &bill.length)?;
    }
    Ok(())
}

fn sizes(twin: &mut Twin) -> Checked {
    let steps = |count: usize| erase(0, 0).repeat(count);
    let full = |steps: &[u8], payload| Job {
        tape: 64 * 792,
        ..job(0, steps, payload)
    };
    expect(twin, &full(&steps(63), 0), 0, 0)?;
    expect(twin, &full(&steps(64), 0), 0, 0)?;
    expect(twin, &full(&steps(65), 0), 20, 0)?;
    expect(twin, &full(&steps(4_096), 0), 20, 0)?;
    expect(twin, &full(&steps(64)[1..], 0), 20, 0)?;
    expect(twin, &full(&[1], 0), 20, 0)?;
    expect(twin, &full(&[], 0), 0, 0)?;
    expect(twin, &full(&steps(1), 65_536), 0, 0)?;
    expect(twin, &full(&steps(1), 65_537), 20, 0)?;
    expect(twin, &full(&[], 65_537), 20, 0)
}

fn wide_numbers(twin: &mut Twin) -> Checked {
    for part in OTHER_PARTS {
        expect(
            twin,
            &Job {
                part,
                ..job(0, &erase(0, 0), 0)
            },
            1,
            0,
        )?;
    }
    for setting in 0..32 {
        expect(twin, &job(setting, &[], 0), 0, 0)?;
    }
    for setting in [32, 33, 255, 256, 257, 65_536, 1 << 31, u32::MAX] {
        expect(twin, &job(setting, &erase(0, 0), 0), 21, 0)?;
        expect(twin, &job(setting, &[], 0), 21, 0)?;
    }
    Ok(())
}

fn null_pointers(_: &mut Twin) -> Checked {
    let answer = ffi::translate(1, 0, Lent::NULL, Lent::NULL, LentMut::NULL);
    same("nothing", &answer, &ffi::Tape::default())?;
    same(
        "quote",
        &ffi::quote(1, 0, Lent::NULL, Lent::NULL),
        &ffi::Bill::default(),
    )?;
    let step = erase(0, 0);
    let answer = ffi::translate(1, 0, step[..].into(), Lent::NULL, LentMut::NULL);
    same(
        "no tape",
        &(answer.number, answer.index, answer.length),
        &(26, 0, 0),
    )?;
    let step = lay(0, 1, 0);
    let answer = ffi::translate(1, 0, step[..].into(), Lent::NULL, LentMut::NULL);
    same("no payload", &(answer.number, answer.index), &(24, 0))
}

fn bytes_outside_the_rules(twin: &mut Twin) -> Checked {
    let free = |kind: u8, at: usize| match kind {
        1 => (4..8).contains(&at),
        2 => at >= 4,
        _ => false,
    };
    for record in [erase(0, 0), lay(0, 1, 0), guard(0)] {
        for at in (2..16).filter(|&at| !free(record[0], at)) {
            for value in [1, 2, 128, 255] {
                let mut steps = [guard(0), record.clone()].concat();
                steps[16 + at] = value;
                expect(twin, &job(0, &steps, 16), 22, 1)?;
            }
        }
    }
    for value in 0..=255 {
        for (record, most) in [(erase(0, 0), 3), (lay(0, 1, 0), 0), (guard(0), 31)] {
            let mut steps = record;
            steps[1] = value;
            expect(
                twin,
                &job(0, &steps, 16),
                if value > most { 22 } else { 0 },
                0,
            )?;
        }
        let mut kind = vec![0; 16];
        kind[0] = value;
        let number = match value {
            1 | 3 => 0,
            2 => 23,
            _ => 22,
        };
        expect(twin, &job(0, &kind, 16), number, 0)?;
    }
    Ok(())
}

fn figures_off_the_chip(twin: &mut Twin) -> Checked {
    let size = SIZE as u32;
    let mut one = |step: Vec<u8>, number| expect(twin, &job(0, &step, 8_192), number, 0);
    for which in 0..3 {
        one(erase(which, size - 1), 0)?;
        one(erase(which, size), 23)?;
        one(erase(which, u32::MAX), 23)?;
    }
    for (address, number) in [(0, 0), (1, 23), (size - 1, 23), (size, 23), (u32::MAX, 23)] {
        one(erase(3, address), number)?;
    }
    for (length, number) in [
        (0, 23),
        (1, 0),
        (4_096, 0),
        (4_097, 23),
        (1 << 16, 23),
        (u32::MAX, 23),
    ] {
        one(lay(0, length, 0), number)?;
    }
    one(lay(size - 4_096, 4_096, 0), 0)?;
    one(lay(size - 4_095, 4_096, 0), 23)?;
    one(lay(size - 1, 1, 0), 0)?;
    one(lay(size - 1, 2, 0), 23)?;
    one(lay(size, 1, 0), 23)?;
    one(lay(u32::MAX, 1, 0), 23)?;
    one(lay(u32::MAX - 4_094, 4_096, 0), 23)?;
    one(lay(u32::MAX, u32::MAX, u32::MAX), 23)
}

fn spans_of_the_payload(twin: &mut Twin) -> Checked {
    let mut one = |length, offset, payload, number| {
        expect(twin, &job(0, &lay(0, length, offset), payload), number, 0)
    };
    one(4, 0, 4, 0)?;
    one(4, 1, 4, 24)?;
    one(1, 0, 0, 24)?;
    one(1, 3, 4, 0)?;
    one(1, 4, 4, 24)?;
    one(4_096, 61_440, 65_536, 0)?;
    one(4_096, 61_441, 65_536, 24)?;
    one(1, u32::MAX, 65_536, 24)?;
    one(4_096, u32::MAX - 4_095, 65_536, 24)
}

fn protected_at_that_step(twin: &mut Twin) -> Checked {
    let top = erase(0, 0x1F_F000);
    let mut one = |start, steps: &[Vec<u8>], number, index| {
        expect(twin, &job(start, &steps.concat(), 2), number, index)
    };
    one(1, &[guard(0), top.clone()], 0, 0)?;
    one(0, &[top.clone(), guard(1), top.clone()], 25, 2)?;
    one(0, &[guard(1), guard(9), top.clone()], 0, 0)?;
    one(7, &[guard(31), guard(0), top.clone()], 0, 0)?;
    one(1, &[lay(0x1E_FFFF, 2, 0)], 25, 0)?;
    one(1, &[lay(0x1E_FFFE, 2, 0)], 0, 0)?;
    one(17, &[erase(1, 0x1F_8000)], 25, 0)?;
    one(17, &[erase(0, 0x1F_E000), vec![9; 16]], 22, 1)?;
    one(17, &[erase(3, 0), vec![9; 16]], 25, 0)?;
    let last = [erase(0, 0).repeat(63), erase(4, 0)];
    one(0, &last, 22, 63)
}

fn tape_buffers(twin: &mut Twin) -> Checked {
    for (step, length) in [
        (lay(0xFE, 4, 0), 1_584),
        (erase(0, 0), 792),
        (guard(3), 792),
    ] {
        for (tape, number) in [
            (length - 1, 26),
            (length, 0),
            (length + 1, 0),
            (0, 26),
            (length - 264, 26),
            (length + 9_999, 0),
        ] {
            expect(
                twin,
                &Job {
                    tape,
                    ..job(0, &step, 16)
                },
                number,
                0,
            )?;
        }
    }
    expect(
        twin,
        &Job {
            tape: 0,
            ..job(0, &[], 0)
        },
        0,
        0,
    )
}

fn order(twin: &mut Twin) -> Checked {
    for due in Due::every(&[1, 20, 21, 22, 23, 24, 25, 26]) {
        let setting = match (due.is(21), due.is(25)) {
            (true, _) => 256,
            (false, true) => 1,
            (false, false) => 0,
        };
        let length = if due.is(23) { 4_097 } else { 1 };
        let offset = if due.is(24) { 5 } else { 4 };
        let mut steps = [erase(0, 0), lay(0x1F_FFFF, length, offset)].concat();
        steps[16 + 3] = u8::from(due.is(22));
        if due.is(20) {
            steps.push(0);
        }
        let job = Job {
            part: if due.is(1) { 257 } else { 1 },
            tape: if due.is(26) { 1_583 } else { 1_584 },
            ..job(setting, &steps, 5)
        };
        let number = due.first();
        expect(twin, &job, number, u64::from((22..=25).contains(&number)))?;
    }
    Ok(())
}

/// Every setting against spans and units at every border there is.
fn settings_and_borders(twin: &mut Twin) -> Checked {
    for setting in 0..32 {
        for border in (0..=SIZE as u32).step_by(4_096) {
            for address in [border.saturating_sub(1), border] {
                twin.quote(&job(setting, &lay(address, 1, 0), 4))?;
                twin.quote(&job(setting, &lay(address, 2, 0), 4))?;
            }
            for which in 0..3 {
                twin.quote(&job(setting, &erase(which, border), 0))?;
            }
        }
        twin.quote(&job(setting, &erase(3, 0), 0))?;
    }
    Ok(())
}
