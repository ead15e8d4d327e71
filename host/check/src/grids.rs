//! Everything there is of some small things: all register words, all op codes
//! and sizes, every setting against every sector.

use tunebriar::ffi::{Meter, Regs};

use crate::bytes::{at, program};
use crate::calls::{Call, Kept};
use crate::suite::Suite;
use crate::twin::Twin;
use crate::{Checked, SIZE};

/// All grids.
pub fn run(suite: &mut Suite) {
    suite.check("grids/events of every word", events);
    suite.check("grids/op codes, sizes, registers", sizes);
    suite.check("grids/settings and sectors", settings);
    suite.check("grids/status writes", status_writes);
    suite.check("grids/identification", identification);
}

/// Every word of 17 bits, so that a narrowed one is seen.
fn events(twin: &mut Twin) -> Checked {
    for status in 0..1 << 17 {
        for awake in 0..=2 {
            let regs = Regs { status, awake };
            twin.finish(1, regs)?;
            twin.power_cycle(1, regs)?;
        }
    }
    Ok(())
}

/// Well-formed registers that differ in all that a verdict looks at.
fn registers() -> Vec<Regs> {
    let mut all = Vec::new();
    for locks in 0..8 {
        for setting in [0, 1, 17, 29, 6] {
            for (low, awake) in [(0, 1), (2, 1), (3, 1), (0, 0), (2, 0)] {
                let status = locks << 7 | setting << 2 | low;
                all.push(Regs { status, awake });
            }
        }
    }
    all
}

fn sizes(twin: &mut Twin) -> Checked {
    let tail = [0x1F, 0x80, 0x01, 0x00, 0x96, 0x7E, 0xA5];
    for regs in registers() {
        for code in 0..=255 {
            for n in 0..=8 {
                for (leftover, wp) in [(0, 0), (0, 1), (1, 1), (7, 0)] {
                    let kept = Kept {
                        regs,
                        meter: Meter::default(),
                    };
                    let mut call = Call::new(kept, &[&[code], &tail[..]].concat()[..n]);
                    (call.numbers.leftover, call.numbers.wp) = (leftover, wp);
                    twin.transact(&call)?;
                }
            }
        }
    }
    Ok(())
}

/// Every setting against both ends of every sector, by page and by unit.
fn settings(twin: &mut Twin) -> Checked {
    for setting in 0..32 {
        let kept = Kept::awake(setting << 2 | 2);
        for sector in (0..SIZE as u32).step_by(4_096) {
            for address in [sector, sector + 4_095] {
                twin.transact(&Call::new(kept, &program(address, &[0xF7])))?;
            }
            for code in [0x20, 0x52, 0xD8] {
                twin.transact(&Call::new(kept, &at(code, sector + 5)))?;
            }
        }
        for code in [0xC7, 0x60] {
            twin.transact(&Call::new(kept, &[code]))?;
        }
    }
    Ok(())
}

/// Every first byte and some second ones, from words with other bits set.
fn status_writes(twin: &mut Twin) -> Checked {
    for status in [
        0x0002, 0x0082, 0x0102, 0x0182, 0x0202, 0x0282, 0x0302, 0x03FE, 0x027E,
    ] {
        for first in 0..=255 {
            for (n, second) in [(2, 0), (3, 0), (3, 1), (3, 2), (3, 3), (3, 0xFC), (3, 0xFF)] {
                for wp in [0, 1] {
                    let bytes = [0x01, first, second];
                    let mut call = Call::new(Kept::awake(status), &bytes[..n]);
                    call.numbers.wp = wp;
                    twin.transact(&call)?;
                }
            }
        }
    }
    Ok(())
}

fn identification(twin: &mut Twin) -> Checked {
    for code in [0x05, 0x35, 0x90, 0x9F, 0xAB] {
        for address in [0, 1, 2, 0x01_0100, 0xFF_FFFE, 0xFF_FFFF] {
            let bytes = [&at(code, address)[..], &[0; 60]].concat();
            for n in 1..bytes.len() {
                for status in [0, 2, 3, 0x03FC] {
                    twin.transact(&Call::new(Kept::awake(status), &bytes[..n]))?;
                }
            }
        }
    }
    Ok(())
}
