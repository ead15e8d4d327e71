//! The bench readings B1 to B14, each by its own name, through the C interface.

use crate::bytes::{at, program};
use crate::calls::{Call, Kept};
use crate::suite::Suite;
use crate::twin::Twin;
use crate::{Checked, SIZE, same};

const WEL: u32 = 2;

/// All readings.
pub fn run(suite: &mut Suite) {
    suite.check("readings/B1", b1);
    suite.check("readings/B2", |twin| {
        reading(twin, Kept::awake(0), &[0x06, 0x00], 13, &[0xFF; 2])
    });
    suite.check("readings/B3", b3);
    suite.check("readings/B4", b4);
    suite.check("readings/B5", |twin| {
        reading(twin, Kept::awake(WEL), &at(0x02, 0), 13, &[0xFF; 4])
    });
    suite.check("readings/B6", b6);
    suite.check("readings/B7", b7);
    suite.check("readings/B8", |twin| {
        reading(twin, Kept::awake(3), &[0x05, 0x00], 0, &[0xFF, 0x03])
    });
    suite.check("readings/B9", b9);
    suite.check("readings/B10", b10);
    suite.check("readings/B11", b11);
    suite.check("readings/B12", b12);
    #[cfg(feature = "jobs")]
    {
        suite.check("readings/B13", b13);
        suite.check("readings/B14", b14);
    }
}

/// One transaction: its number and its output, whole.
fn reading(twin: &mut Twin, kept: Kept, bytes: &[u8], number: u32, out: &[u8]) -> Checked {
    let answer = twin.transact(&Call::new(kept, bytes))?;
    same("number", &answer.number, &number)?;
    same("output", &twin.written(), &out)
}

fn number(twin: &mut Twin, status: u32, bytes: &[u8], expected: u32) -> Checked {
    reading(
        twin,
        Kept::awake(status),
        bytes,
        expected,
        &vec![0xFF; bytes.len()],
    )
}

fn b1(twin: &mut Twin) -> Checked {
    let answer = twin.transact(&Call::new(Kept::awake(0), &[0x06]))?;
    same("number", &answer.number, &0)?;
    same(
        "registers and meter",
        &Kept::from(answer),
        &Kept::awake(WEL),
    )?;
    same("output", &twin.written(), &&[0xFF][..])
}

fn b3(twin: &mut Twin) -> Checked {
    twin.set_all(0xFF);
    let bytes = [0x02, 0x00, 0x00, 0xFE, 0x11, 0x22, 0x33, 0x44];
    number(twin, WEL, &bytes, 0)?;
    same(
        "FE, FF, 100",
        &&twin.array()[0xFE..=0x100],
        &&[0x11, 0x22, 0xFF][..],
    )?;
    same(
        "000, 001, 002",
        &&twin.array()[..3],
        &&[0x33, 0x44, 0xFF][..],
    )?;
    let changed = twin.array().iter().filter(|&&byte| byte != 0xFF).count();
    same("bytes changed", &changed, &4)
}

fn b4(twin: &mut Twin) -> Checked {
    twin.set(0x1234, &[0xF0]);
    number(twin, WEL, &program(0x1234, &[0x3C]), 0)?;
    same("the byte", &twin.array()[0x1234], &0x30)
}

fn b6(twin: &mut Twin) -> Checked {
    let setting_1 = 1 << 2 | WEL;
    number(twin, setting_1, &program(0x1F_0000, &[0]), 16)?;
    number(twin, setting_1, &program(0x1E_FFFF, &[0]), 0)
}

fn b7(twin: &mut Twin) -> Checked {
    let setting_17 = 17 << 2 | WEL;
    number(twin, setting_17, &at(0x52, 0x1F_8000), 16)?;
    number(twin, setting_17, &at(0x20, 0x1F_E000), 0)
}

fn b9(twin: &mut Twin) -> Checked {
    let mut asleep = Kept::awake(0);
    asleep.regs.awake = 0;
    reading(twin, asleep, &[0x05, 0x00], 11, &[0xFF, 0xFF])
}

fn b10(twin: &mut Twin) -> Checked {
    let answer = twin.transact(&Call::new(Kept::awake(0x0202), &[0x01, 0x04]))?;
    same("number", &answer.number, &0)?;
    same("status", &answer.regs.status, &0x0207)?;
    let event = twin.finish(1, Kept::from(answer).regs)?;
    same("after finish", &event.regs.status, &0x0204)
}

fn b11(twin: &mut Twin) -> Checked {
    twin.set(SIZE - 1, &[0xA7]);
    twin.set(0, &[0x5C]);
    let out = [0xFF, 0xFF, 0xFF, 0xFF, 0xA7, 0x5C];
    reading(
        twin,
        Kept::awake(0),
        &[0x03, 0x1F, 0xFF, 0xFF, 0, 0],
        0,
        &out,
    )
}

fn b12(twin: &mut Twin) -> Checked {
    let data: Vec<u8> = (0..4_092u32).map(|k| (k * 7 % 251) as u8).collect();
    twin.set(0x0A_BCDE, &data);
    let mut bytes = vec![0; 4_096];
    bytes[..4].copy_from_slice(&at(0x03, 0x0A_BCDE));
    let out = [&[0xFF; 4], &data[..]].concat();
    reading(twin, Kept::awake(0), &bytes, 0, &out)?;
    bytes.push(0);
    let answer = twin.transact(&Call::new(Kept::awake(0), &bytes))?;
    same("number of 4,097 bytes", &answer.number, &4)
}

#[cfg(feature = "jobs")]
fn job(setting: u32, steps: Vec<u8>, payload: &[u8], tape: usize) -> crate::calls::Job {
    crate::calls::Job {
        part: 1,
        setting,
        steps,
        payload: payload.to_vec(),
        tape,
    }
}

#[cfg(feature = "jobs")]
fn b13(twin: &mut Twin) -> Checked {
    let job = job(1, crate::bytes::lay(0x1E_FFFF, 2, 0), &[1, 2], 2_000);
    let answer = twin.translate(&job)?;
    let told = (answer.number, answer.index, answer.length);
    same("number, index, length", &told, &(25, 0, 0))?;
    let bill = twin.quote(&job)?;
    same(
        "number and index of the quote",
        &(bill.number, bill.index),
        &(25, 0),
    )
}

#[cfg(feature = "jobs")]
fn b14(twin: &mut Twin) -> Checked {
    const LISTING: &str = "\
0000 T 06 001
0001 T 02 006
0002 F
0003 T 06 001
0004 T 02 006
0005 F
";
    let payload = [0x11, 0x22, 0x33, 0x44];
    let answer = twin.translate(&job(0, crate::bytes::lay(0xFE, 4, 0), &payload, 2_000))?;
    let told = (answer.number, answer.index, answer.length);
    same("number, index, length", &told, &(0, 0, 1_584))?;
    let tape = twin.written()[..1_584].to_vec();
    let pages = [program(0xFE, &[0x11, 0x22]), program(0x100, &[0x33, 0x44])];
    let expected = pages.map(|page| crate::bytes::done(&page)).concat();
    same("tape", &tape, &expected)?;
    let listing = String::from_utf8_lossy(&second::listing(&tape)).into_owned();
    same("listing", &listing.as_str(), &LISTING)?;
    (0..=6).try_for_each(|place| twin.read(&tape, place).map(|_| ()))
}
