//! The meter by itself: every clause of the counting sentence, nothing else, and
//! the two refusals. That it agrees with every transaction, `Host::send` asks.

use crate::common::*;
use second::count;

const SOME: [u32; 4] = [11, 22, 33, 44];

/// The place of the count that is one more, by the paper.
fn raised(number: u32, op: u32) -> Option<usize> {
    match (number, op) {
        (0, 0x02) => Some(0),
        (0, 0x20 | 0x52 | 0xD8 | 0xC7 | 0x60) => Some(1),
        (0, 0x01) => Some(2),
        (10..=16, _) => Some(3),
        _ => None,
    }
}

#[test]
fn one_count_is_one_more_or_none_is() {
    let wide = [256, 257, 266, 65_536, 65_538, 1 << 31, u32::MAX];
    for number in (0..=300).chain(wide) {
        for op in (0..=0x220).chain(wide) {
            let mut counted = meter(SOME);
            assert_eq!(count(1, &mut counted, number, op), 0);
            let mut expected = SOME;
            if let Some(which) = raised(number, op) {
                expected[which] += 1;
            }
            assert_eq!(counted, meter(expected), "{number} {op:X}");
        }
    }
}

#[test]
fn other_parts_come_before_a_full_count_and_neither_counts() {
    for part in [0, 2, 3, 257, 65_537, u32::MAX] {
        for which in 0..4 {
            let mut counts = SOME;
            counts[which] = FULL;
            for before in [meter(SOME), meter(counts)] {
                let mut counted = before;
                assert_eq!(count(part, &mut counted, 10, 0x02), 1);
                assert_eq!(counted, before);
            }
        }
    }
}

#[test]
fn any_full_count_refuses_any_answer() {
    for which in 0..4 {
        for (number, op) in [(0, 0x02), (0, 0x20), (0, 0x01), (12, 0), (0, 0x06), (6, 0)] {
            let mut counts = SOME;
            counts[which] = FULL;
            let mut counted = meter(counts);
            assert_eq!(count(1, &mut counted, number, op), 7);
            assert_eq!(counted, meter(counts));
            counts[which] = FULL - 1;
            counted = meter(counts);
            assert_eq!(count(1, &mut counted, number, op), 0);
        }
    }
}

#[test]
fn each_count_may_reach_its_highest_value() {
    for (which, (number, op)) in [(0, 0x02), (0, 0x60), (0, 0x01), (16, 0)]
        .into_iter()
        .enumerate()
    {
        let mut counts = SOME;
        counts[which] = FULL - 1;
        let mut counted = meter(counts);
        counts[which] = FULL;
        assert_eq!(count(1, &mut counted, number, op), 0);
        assert_eq!(counted, meter(counts));
        assert_eq!(count(1, &mut counted, number, op), 7);
        assert_eq!(counted, meter(counts));
    }
}
