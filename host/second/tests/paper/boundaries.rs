//! The edges: sizes, counts, wrapping, identification, sleep, power.

use crate::common::*;
use second::{Meter, Regs, finish, power_cycle, transact};

#[test]
fn an_output_one_short() {
    let mut host = Host::new(0);
    for n in [1, 2, 4_096] {
        let mut out = vec![0x55; n - 1];
        let bytes = vec![0x05; n];
        let (regs, meter) = (host.regs, host.meter);
        let answer = transact(1, regs, meter, 0, 1, &mut host.array, &mut out, &bytes);
        assert_eq!(answer.number, 6);
        assert!(out.iter().all(|&byte| byte == 0x55));
    }
}

#[test]
fn empty_slices() {
    let mut host = Host::new(0);
    assert_eq!(host.verdict(&[]), 12);
    let (regs, meter) = (host.regs, Meter::default());
    let answer = transact(1, regs, meter, 0, 1, &mut [], &mut [], &[]);
    assert_eq!(answer.number, 2);
}

#[test]
fn any_full_count_refuses_any_transaction() {
    for k in 0..4 {
        for (count, number) in [(FULL, 7), (FULL - 1, 0)] {
            let mut counts = [5; 4];
            counts[k] = count;
            let mut host = Host::new(0);
            host.meter = meter(counts);
            let before = host.meter;
            assert_eq!(host.verdict(&[0x05]), number);
            assert_eq!(host.meter, before);
        }
    }
}

#[test]
fn a_count_may_reach_its_highest_value() {
    let mut host = Host::new(0);
    host.meter.ignored = FULL - 1;
    assert_eq!(host.verdict(&[0x00]), 12);
    assert_eq!(host.meter.ignored, FULL);
    assert_eq!(host.verdict(&[0x00]), 7);
    assert_eq!(host.meter.ignored, FULL);
}

#[test]
fn a_long_program_keeps_the_last_byte_for_each_place() {
    let mut host = Host::new(WEL);
    let data: Vec<u8> = (0..600u32).map(|k| (k * 7 % 251) as u8).collect();
    assert_eq!(host.verdict(&program(0x00_20F0, &data)), 0);
    for place in 0..256 {
        let last = (0..600).rev().find(|k| (0xF0 + k) % 256 == place).unwrap();
        assert_eq!(host.array[0x2000 + place], data[last]);
    }
    assert_eq!(host.array[0x1FFF], 0xFF);
    assert_eq!(host.array[0x2100], 0xFF);
}

#[test]
fn a_place_sent_twice_is_anded_only_with_its_last() {
    let mut host = Host::new(WEL);
    let mut data = vec![0x00; 256];
    data.push(0xA5);
    assert_eq!(host.verdict(&program(0x10, &data)), 0);
    assert_eq!(host.array[0x10], 0xA5);
}

#[test]
fn addresses_are_taken_modulo_the_chip() {
    let mut host = Host::new(WEL);
    assert_eq!(host.verdict(&[0x02, 0xE0, 0x00, 0x07, 0x12]), 0);
    assert_eq!(host.array[7], 0x12);
    host.regs.status = 0;
    assert_eq!(host.verdict(&[0x03, 0x20, 0x00, 0x07, 0]), 0);
    assert_eq!(host.out[4], 0x12);
    assert_eq!(host.verdict(&[0x0B, 0xFF, 0xFF, 0xFF, 0, 0, 0]), 0);
    assert_eq!(host.out[5..], [0xFF, 0xFF]);
}

#[test]
fn a_fast_read_begins_one_place_later() {
    let mut host = Host::new(0);
    host.array[..3].copy_from_slice(&[1, 2, 3]);
    assert_eq!(host.verdict(&[0x0B, 0, 0, 0]), 13);
    assert_eq!(host.verdict(&[0x0B, 0, 0, 0, 0]), 0);
    assert_eq!(host.out, [0xFF; 5]);
    assert_eq!(host.verdict(&[0x0B, 0, 0, 0, 0, 0, 0]), 0);
    assert_eq!(host.out, [0xFF, 0xFF, 0xFF, 0xFF, 0xFF, 1, 2]);
}

#[test]
fn maker_and_device_by_address_parity() {
    let mut host = Host::new(0);
    for (bytes, shown) in [
        ([0, 0, 0], [0xF8, 0x14, 0xF8]),
        ([0, 0, 1], [0x14, 0xF8, 0x14]),
        ([1, 1, 0xFE], [0xF8, 0x14, 0xF8]),
        ([0xFF, 0xFF, 0xFF], [0x14, 0xF8, 0x14]),
    ] {
        assert_eq!(host.verdict(&[&[0x90], &bytes[..], &[0; 3]].concat()), 0);
        assert_eq!(host.out[..4], [0xFF; 4]);
        assert_eq!(host.out[4..], shown);
    }
}

#[test]
fn the_jedec_bytes_and_nothing_after() {
    let mut host = Host::new(0);
    assert_eq!(host.verdict(&[0x9F; 9]), 0);
    let shown = [0xFF, 0xF8, 0x32, 0x15, 0xFF, 0xFF, 0xFF, 0xFF, 0xFF];
    assert_eq!(host.out, shown);
}

#[test]
fn release_wakes_and_drives_the_device_byte() {
    for status in [0, WEL] {
        let mut host = Host::asleep(status);
        host.leftover = 7;
        assert_eq!(host.verdict(&[0xAB, 1, 2, 3, 4]), 0);
        assert_eq!(host.out, [0xFF, 0xFF, 0xFF, 0xFF, 0x14]);
        assert_eq!(host.regs, Regs { status, awake: 1 });
    }
    let mut host = Host::asleep(0);
    assert_eq!(host.verdict(&[0xAB]), 0);
    assert_eq!((host.regs.awake, host.out), (1, vec![0xFF]));
    let mut host = Host::new(0);
    assert_eq!(host.verdict(&[0xAB, 0, 0, 0, 0, 0]), 0);
    assert_eq!(host.out[4..], [0x14, 0x14]);
}

#[test]
fn sleep_keeps_the_status_word() {
    let mut host = Host::new(0x02FE);
    assert_eq!(host.verdict(&[0xB9]), 0);
    assert_eq!((host.regs.status, host.regs.awake), (0x02FE, 0));
    assert_eq!(host.verdict(&[0xB9]), 11);
    assert_eq!(host.verdict(&[0xAB]), 0);
    assert_eq!((host.regs.status, host.regs.awake), (0x02FE, 1));
}

#[test]
fn status_writes_of_one_and_two_bytes() {
    for (before, bytes, after) in [
        (0x0002, vec![0x01, 0xFF], 0x00FF),
        (0x0202, vec![0x01, 0x00], 0x0203),
        (0x0202, vec![0x01, 0x00, 0xFC], 0x0003),
        (0x0002, vec![0x01, 0x00, 0xFF], 0x0303),
        (0x02FE, vec![0x01, 0x03, 0x02], 0x0203),
    ] {
        let mut host = Host::new(before);
        assert_eq!(host.verdict(&bytes), 0);
        assert_eq!(host.regs.status, after);
    }
    for n in [1, 4, 5] {
        assert_eq!(Host::new(WEL).verdict(&vec![0x01; n]), 13);
    }
}

#[test]
fn writes_set_busy_and_a_finish_ends_it() {
    for bytes in [program(0, &[0]), at(0x20, 0), vec![0xC7], vec![0x01, 0]] {
        let mut host = Host::new(WEL);
        assert_eq!(host.verdict(&bytes), 0);
        assert_eq!(host.regs.status, 3);
        assert_eq!(host.verdict(&bytes), 10);
        assert_eq!(finish(1, host.regs).regs.status, 0);
    }
}

#[test]
fn finish_changes_only_a_busy_chip() {
    for status in 0..0x400u32 {
        for awake in 0..=1 {
            let regs = Regs { status, awake };
            let answer = finish(1, regs);
            if answer.number == 0 {
                let busy = status & 1 == 1;
                let after = if busy { status & !3 } else { status };
                assert_eq!((answer.regs.status, answer.regs.awake), (after, awake));
            }
        }
    }
}

#[test]
fn power_cycle_and_the_lock_bits() {
    for (before, after) in [
        (0x0100, 0x0000),
        (0x0180, 0x0180),
        (0x0080, 0x0080),
        (0x0000, 0x0000),
        (0x037F, 0x027C),
        (0x03FF, 0x03FC),
        (0x02FF, 0x02FC),
    ] {
        let regs = |status| Regs { status, awake: 1 };
        assert_eq!(power_cycle(1, regs(before)).regs, regs(after));
    }
    let asleep = Regs {
        status: 0x0102,
        awake: 0,
    };
    let woken = Regs {
        status: 0,
        awake: 1,
    };
    assert_eq!(power_cycle(1, asleep).regs, woken);
}

#[test]
fn erases_clear_their_unit_and_nothing_else() {
    for (code, size) in [(0x20, 4_096), (0x52, 32_768), (0xD8, 65_536)] {
        for address in [0, 0x12_3456, SIZE - 1] {
            let mut host = Host::new(WEL);
            host.array.fill(0x3C);
            assert_eq!(host.verdict(&at(code, address as u32)), 0);
            let mut expected = vec![0x3C; SIZE];
            expected[address / size * size..][..size].fill(0xFF);
            assert_eq!(host.array, expected);
        }
    }
}
