//! B1 to B14, each under its own name.

use crate::common::*;
use second::{finish, listing, read, transact, translate};

#[test]
fn b1_write_enable() {
    let mut host = Host::new(0);
    let answer = host.send(&[0x06]);
    assert_eq!((answer.number, answer.code), (0, 0x06));
    assert_eq!(host.regs.status, WEL);
    assert_eq!(host.out, [0xFF]);
}

#[test]
fn b2_write_enable_with_a_byte_too_many() {
    assert_eq!(Host::new(0).verdict(&[0x06, 0x00]), 13);
}

#[test]
fn b3_a_program_wraps_inside_its_page() {
    let mut host = Host::new(WEL);
    let bytes = [0x02, 0x00, 0x00, 0xFE, 0x11, 0x22, 0x33, 0x44];
    assert_eq!(host.verdict(&bytes), 0);
    assert_eq!(host.array[0xFE..=0x100], [0x11, 0x22, 0xFF]);
    assert_eq!(host.array[..3], [0x33, 0x44, 0xFF]);
    let changed = host.array.iter().filter(|&&byte| byte != 0xFF).count();
    assert_eq!(changed, 4);
}

#[test]
fn b4_a_program_is_old_and_new() {
    let mut host = Host::new(WEL);
    host.array[0x1234] = 0xF0;
    assert_eq!(host.verdict(&program(0x1234, &[0x3C])), 0);
    assert_eq!(host.array[0x1234], 0x30);
}

#[test]
fn b5_a_program_without_data() {
    assert_eq!(Host::new(WEL).verdict(&[0x02, 0, 0, 0]), 13);
}

#[test]
fn b6_the_top_block_is_protected() {
    let setting_1 = 1 << 2 | WEL;
    assert_eq!(Host::new(setting_1).verdict(&program(0x1F_0000, &[0])), 16);
    assert_eq!(Host::new(setting_1).verdict(&program(0x1E_FFFF, &[0])), 0);
}

#[test]
fn b7_an_erase_looks_at_its_whole_unit() {
    let setting_17 = 17 << 2 | WEL;
    assert_eq!(Host::new(setting_17).verdict(&at(0x52, 0x1F_8000)), 16);
    assert_eq!(Host::new(setting_17).verdict(&at(0x20, 0x1F_E000)), 0);
}

#[test]
fn b8_the_status_of_a_busy_chip() {
    let mut host = Host::new(0x0003);
    assert_eq!(host.verdict(&[0x05, 0x00]), 0);
    assert_eq!(host.out, [0xFF, 0x03]);
}

#[test]
fn b9_asleep() {
    let mut host = Host::asleep(0);
    assert_eq!(host.verdict(&[0x05, 0x00]), 11);
    assert_eq!(host.out, [0xFF, 0xFF]);
}

#[test]
fn b10_a_one_byte_status_write_keeps_the_high_bits() {
    let mut host = Host::new(0x0202);
    assert_eq!(host.verdict(&[0x01, 0x04]), 0);
    assert_eq!(host.regs.status, 0x0207);
    assert_eq!(finish(1, host.regs).regs.status, 0x0204);
}

#[test]
fn b11_a_read_wraps_at_the_end() {
    let mut host = Host::new(0);
    host.array[SIZE - 1] = 0xA7;
    host.array[0] = 0x5C;
    assert_eq!(host.verdict(&[0x03, 0x1F, 0xFF, 0xFF, 0, 0]), 0);
    assert_eq!(host.out, [0xFF, 0xFF, 0xFF, 0xFF, 0xA7, 0x5C]);
}

#[test]
fn b12_the_longest_transaction() {
    let mut host = Host::new(0);
    host.array = Rng(12).bytes(SIZE);
    let mut bytes = vec![0; 4_096];
    bytes[..4].copy_from_slice(&[0x03, 0x0A, 0xBC, 0xDE]);
    assert_eq!(host.verdict(&bytes), 0);
    assert_eq!(host.out[..4], [0xFF; 4]);
    assert_eq!(host.out[4..], host.array[0x0A_BCDE..][..4_092]);
    bytes.push(0);
    assert_eq!(host.verdict(&bytes), 4);
    assert_eq!(host.out, vec![0x55; 4_097]);
}

#[test]
fn b13_a_lay_into_the_protected_block() {
    let mut tape = vec![0x55; 2_000];
    let answer = translate(1, 1, &lay(0x1E_FFFF, 2, 0), &[1, 2], &mut tape);
    assert_eq!((answer.number, answer.index, answer.length), (25, 0, 0));
    assert_eq!(tape, vec![0x55; 2_000]);
}

const B14_LISTING: &str = "\
0000 T 06 001
0001 T 02 006
0002 F
0003 T 06 001
0004 T 02 006
0005 F
";

#[test]
fn b14_a_lay_over_two_pages() {
    let tape = tape_of(0, &lay(0x00_00FE, 4, 0), &[0x11, 0x22, 0x33, 0x44]);
    assert_eq!(tape.len(), 1_584);
    let transactions: [&[u8]; 4] = [
        &[0x06],
        &[0x02, 0x00, 0x00, 0xFE, 0x11, 0x22],
        &[0x06],
        &[0x02, 0x00, 0x01, 0x00, 0x33, 0x44],
    ];
    for (place, bytes) in [0, 1, 3, 4].into_iter().zip(transactions) {
        let record = read(&tape, place);
        assert_eq!((record.kind, record.leftover, record.wp), (0, 0, 1));
        let read = &tape[record.start as usize..][..record.length as usize];
        assert_eq!(read, bytes);
    }
    assert_eq!(listing(&tape), B14_LISTING.as_bytes());
}

#[test]
fn b14_byte_for_byte() {
    let tape = tape_of(0, &lay(0x00_00FE, 4, 0), &[0x11, 0x22, 0x33, 0x44]);
    let mut expected = Vec::new();
    for data in [[0x02, 0, 0, 0xFE, 0x11, 0x22], [0x02, 0, 1, 0, 0x33, 0x44]] {
        expected.extend(tape_record(0, 8, &[0x06]));
        expected.extend(tape_record(0, 8, &data));
        expected.extend(tape_record(1, 0, &[]));
    }
    assert_eq!(tape, expected);
}

#[test]
fn an_output_longer_than_n_keeps_its_rest() {
    let mut host = Host::new(0);
    let mut out = [0x55; 4];
    let answer = transact(
        1,
        host.regs,
        host.meter,
        0,
        1,
        &mut host.array,
        &mut out,
        &[0x9F, 0],
    );
    assert_eq!(answer.number, 0);
    assert_eq!(out, [0xFF, 0xF8, 0x55, 0x55]);
}
