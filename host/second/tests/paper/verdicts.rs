//! Every verdict, its place in the list, and what an ignored command leaves.

use crate::common::*;
use crate::oracle;
use second::{Meter, Regs};

/// Well-formed registers that differ in all that a verdict looks at.
fn every_kind_of_registers() -> Vec<Regs> {
    let mut all = Vec::new();
    for locks in 0..8 {
        for setting in [0, 1, 17, 24 + 5, 6] {
            for (low, awake) in [(0, 1), (2, 1), (3, 1), (0, 0), (2, 0)] {
                let status = locks << 7 | setting << 2 | low;
                all.push(Regs { status, awake });
            }
        }
    }
    all
}

#[test]
fn all_op_codes_sizes_and_registers_agree_with_the_paper() {
    let mut host = Host::new(0);
    let tail = [0x1F, 0x80, 0x01, 0x00, 0x96, 0x7E];
    let mut seen = [0u32; 17];
    for regs in every_kind_of_registers() {
        for code in 0..=255 {
            for n in 0..=7 {
                let bytes = &[&[code], &tail[..]].concat()[..n];
                for (leftover, wp) in [(0, 0), (0, 1), (1, 1), (7, 0)] {
                    (host.regs, host.leftover, host.wp) = (regs, leftover, wp);
                    let number = host.verdict(bytes);
                    let paper = oracle::verdict(regs, leftover, wp, bytes);
                    assert_eq!(number, paper, "{regs:?} {bytes:02X?} {leftover} {wp}");
                    seen[number as usize] += 1;
                    if number == 0 {
                        assert_eq!(host.regs, oracle::registers(regs, bytes));
                        assert_eq!(host.out, oracle::output(regs, &host.array, bytes));
                    } else {
                        assert_eq!(host.regs, regs);
                        assert!(host.out.iter().all(|&byte| byte == 0xFF));
                    }
                }
            }
        }
    }
    let reached = |number: &usize| seen[*number] > 0;
    assert!([0, 10, 11, 12, 13, 14, 15, 16].iter().all(reached));
}

#[test]
fn no_whole_byte_comes_before_asleep_and_busy() {
    for mut host in [Host::asleep(0), Host::new(3), Host::new(0)] {
        host.leftover = 3;
        assert_eq!(host.verdict(&[]), 12);
        assert_eq!(host.meter.ignored, 1);
    }
}

#[test]
fn asleep_and_busy_come_before_unknown() {
    assert_eq!(Host::asleep(0).verdict(&[0xEF]), 11);
    assert_eq!(Host::new(3).verdict(&[0xEF]), 10);
    assert_eq!(Host::new(0).verdict(&[0xEF]), 12);
}

#[test]
fn a_busy_chip_does_not_hear_release() {
    assert_eq!(Host::new(3).verdict(&[0xAB]), 10);
    assert_eq!(Host::new(3).verdict(&[0x35]), 0);
}

#[test]
fn the_sheets_other_commands_are_unknown() {
    for code in [
        0xFF, 0xEF, 0xDF, 0x32, 0x38, 0xBB, 0xEB, 0xB1, 0xC1, 0x2B, 0x2F, 0x75, 0x7A, 0x00,
    ] {
        assert_eq!(Host::new(WEL).verdict(&[code, 0, 0, 0, 0]), 12);
    }
}

#[test]
fn fourteen_comes_before_fifteen_and_sixteen() {
    assert_eq!(Host::new(0x0100).verdict(&[0x01, 0]), 14);
    assert_eq!(Host::new(0x0102).verdict(&[0x01, 0]), 15);
    assert_eq!(Host::new(7 << 2).verdict(&[0xC7]), 14);
    assert_eq!(Host::new(7 << 2 | WEL).verdict(&[0xC7]), 16);
}

#[test]
fn the_lock_by_pin() {
    for (status, wp, verdict) in [
        (0x0082, 0, 15),
        (0x0082, 1, 0),
        (0x0082, 256, 0),
        (0x0082, u32::MAX, 0),
        (0x0282, 0, 0),
        (0x0182, 1, 15),
        (0x0302, 1, 15),
        (0x0002, 0, 0),
    ] {
        let mut host = Host::new(status);
        host.wp = wp;
        assert_eq!(host.verdict(&[0x01, 0x00]), verdict, "{status:04X} {wp}");
    }
}

#[test]
fn an_ignored_write_keeps_wel_and_counts_once() {
    for (status, bytes) in [
        (WEL, vec![0x02, 0, 0, 0]),
        (WEL, at(0x20, 0)[..3].to_vec()),
        (7 << 2 | WEL, program(0, &[0])),
        (0x0102, vec![0x01, 0]),
    ] {
        let mut host = Host::new(status);
        let answer = host.send(&bytes);
        assert!((13..=16).contains(&answer.number));
        assert_eq!(answer.regs, Regs { status, awake: 1 });
        assert_eq!(answer.code, 0);
        let ignored = Meter {
            ignored: 1,
            ..Meter::default()
        };
        assert_eq!(answer.meter, ignored);
        assert_eq!(host.array, vec![0xFF; SIZE]);
    }
}

#[test]
fn only_accepted_writes_count() {
    for (bytes, counts) in [
        (vec![0x06], [0, 0, 0, 0]),
        (vec![0x04], [0, 0, 0, 0]),
        (vec![0x05, 0], [0, 0, 0, 0]),
        (vec![0xB9], [0, 0, 0, 0]),
        (vec![0xAB], [0, 0, 0, 0]),
        (program(0, &[0]), [1, 0, 0, 0]),
        (at(0x20, 0), [0, 1, 0, 0]),
        (at(0x52, 0), [0, 1, 0, 0]),
        (at(0xD8, 0), [0, 1, 0, 0]),
        (vec![0xC7], [0, 1, 0, 0]),
        (vec![0x60], [0, 1, 0, 0]),
        (vec![0x01, 0], [0, 0, 1, 0]),
        (vec![0x00], [0, 0, 0, 1]),
    ] {
        let mut host = Host::new(WEL);
        let Meter {
            programs,
            erases,
            register_writes,
            ignored,
        } = host.send(&bytes).meter;
        assert_eq!(
            [programs, erases, register_writes, ignored],
            counts,
            "{bytes:02X?}"
        );
    }
}

#[test]
fn the_answer_names_what_was_carried_out() {
    for code in [
        0x06, 0x04, 0x05, 0x35, 0x01, 0x03, 0x0B, 0x02, 0x20, 0x52, 0xD8, 0xC7, 0x60, 0xB9, 0xAB,
        0x90, 0x9F,
    ] {
        let named = (1..=5)
            .map(|n| Host::new(WEL).send(&vec![code; n]))
            .find(|answer| answer.number == 0)
            .map(|answer| answer.code);
        let expected = if code == 0x60 { 0xC7 } else { u32::from(code) };
        assert_eq!(named, Some(expected));
    }
}
