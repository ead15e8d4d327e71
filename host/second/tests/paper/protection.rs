//! All 32 settings, through the entries.

use crate::common::*;
use crate::oracle::protects;
use second::translate;

#[test]
fn programs_under_every_setting_and_in_every_page() {
    let mut host = Host::new(0);
    for setting in 0..32 {
        for page in 0..SIZE / 256 {
            host.regs.status = setting << 2 | WEL;
            let verdict = host.verdict(&program(page as u32 * 256 + 255, &[0xFF]));
            let expected = if protects(setting, page * 256) { 16 } else { 0 };
            assert_eq!(verdict, expected, "setting {setting}, page {page}");
        }
    }
}

#[test]
fn erases_under_every_setting_and_of_every_unit() {
    let mut host = Host::new(0);
    for setting in 0..32 {
        for (code, size) in [(0x20, 4_096), (0x52, 32_768), (0xD8, 65_536)] {
            for first in (0..SIZE).step_by(size) {
                host.regs.status = setting << 2 | WEL;
                let verdict = host.verdict(&at(code, (first + size / 2) as u32));
                let some = (first..first + size).any(|byte| protects(setting, byte));
                assert_eq!(verdict, if some { 16 } else { 0 });
            }
        }
    }
}

#[test]
fn a_whole_chip_erase_needs_no_protection_at_all() {
    for setting in 0..32 {
        for code in [0xC7, 0x60] {
            let mut host = Host::new(setting << 2 | WEL);
            host.array.fill(0);
            let expected = if setting & 7 == 0 { 0 } else { 16 };
            assert_eq!(host.verdict(&[code]), expected);
            let left = if expected == 0 { 0xFF } else { 0 };
            assert!(host.array.iter().all(|&byte| byte == left));
        }
    }
}

#[test]
fn the_translator_knows_the_same_areas() {
    let mut tape = vec![0; 792];
    for setting in 0..32 {
        for sector in 0..512u32 {
            let job = erase(0, sector * 4_096 + 4_095);
            let number = translate(1, setting, &job, &[], &mut tape).number;
            let some = protects(setting, sector as usize * 4_096);
            assert_eq!(number, if some { 25 } else { 0 });
        }
        let whole = translate(1, setting, &erase(3, 0), &[], &mut tape).number;
        assert_eq!(whole, if setting & 7 == 0 { 0 } else { 25 });
    }
}

#[test]
fn the_translator_looks_at_the_span_of_a_lay() {
    let mut tape = vec![0; 2_000];
    let mut lays =
        |setting, address| translate(1, setting, &lay(address, 2, 0), &[0, 0], &mut tape).number;
    assert_eq!(lays(1, 0x1E_FFFE), 0);
    assert_eq!(lays(1, 0x1E_FFFF), 25);
    assert_eq!(lays(9, 0x00_FFFF), 25);
    assert_eq!(lays(9, 0x01_0000), 0);
}
