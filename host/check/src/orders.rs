//! The order of the checks: every choice of refusals that are due at once, and
//! the first of them is given.

use tunebriar::ffi::{Meter, Regs};

use crate::bytes::{record, sent};
use crate::calls::{Call, Counting, Kept, Playing};
use crate::suite::Suite;
use crate::twin::Twin;
use crate::{Checked, FULL, SIZE, same};

/// The orders of every entry but those of jobs.
pub fn run(suite: &mut Suite) {
    suite.check("orders/transaction", transaction);
    suite.check("orders/replay", replay);
    suite.check("orders/event", event);
    suite.check("orders/count", count);
}

/// The numbers whose bit of `choice` is 1.
pub(crate) struct Due<'a> {
    order: &'a [u32],
    choice: u32,
}

impl Due<'_> {
    pub(crate) fn every(order: &[u32]) -> impl Iterator<Item = Due<'_>> {
        (0..1 << order.len()).map(move |choice| Due { order, choice })
    }

    pub(crate) fn is(&self, number: u32) -> bool {
        self.numbers().any(|due| due == number)
    }

    /// The first that is due, or 0.
    pub(crate) fn first(&self) -> u32 {
        self.numbers().next().unwrap_or(0)
    }

    fn numbers(&self) -> impl Iterator<Item = u32> {
        let chosen = |place: &usize| self.choice >> place & 1 == 1;
        (0..self.order.len())
            .filter(chosen)
            .map(|place| self.order[place])
    }
}

fn kept(due: &Due) -> Kept {
    let mut meter = Meter::default();
    if due.is(7) {
        meter.register_writes = FULL;
    }
    let status = if due.is(3) { 0x0403 } else { 0x0002 };
    Kept {
        regs: Regs { status, awake: 1 },
        meter,
    }
}

fn transaction(twin: &mut Twin) -> Checked {
    for due in Due::every(&[1, 2, 3, 4, 5, 6, 7]) {
        let n = if due.is(4) { 4_097 } else { 9 };
        let mut call = Call::new(kept(&due), &vec![0x05; n]);
        call.numbers.part = if due.is(1) { 257 } else { 1 };
        call.numbers.leftover = if due.is(5) { 256 } else { 7 };
        call.array = if due.is(2) { SIZE - 1 } else { SIZE };
        call.out = if due.is(6) { n - 1 } else { n };
        let answer = twin.transact(&call)?;
        same(
            format_args!("number of {call}"),
            &answer.number,
            &due.first(),
        )?;
    }
    Ok(())
}

fn replay(twin: &mut Twin) -> Checked {
    for due in Due::every(&[1, 2, 3, 30, 31, 7]) {
        let bad = if due.is(31) { 3 } else { 1 };
        let mut tape = [sent(&[0x06]), sent(&[0x01, 4]), record(bad, 0, &[])].concat();
        if due.is(30) {
            tape.push(0);
        }
        for k in [None, Some(0), Some(2)] {
            let mut call = Playing::new(kept(&due), &tape);
            call.part = if due.is(1) { 65_537 } else { 1 };
            call.array = if due.is(2) { SIZE + 1 } else { SIZE };
            call.k = k;
            let answer = twin.replay(&call)?;
            let index = if due.first() == 31 { 2 } else { 0 };
            let told = (answer.number, answer.index);
            same(
                format_args!("number and index of {call}"),
                &told,
                &(due.first(), index),
            )?;
        }
    }
    Ok(())
}

fn event(twin: &mut Twin) -> Checked {
    for due in Due::every(&[1, 3]) {
        let part = if due.is(1) { 2 } else { 1 };
        let regs = kept(&due).regs;
        same("finish", &twin.finish(part, regs)?.number, &due.first())?;
        same(
            "power cycle",
            &twin.power_cycle(part, regs)?.number,
            &due.first(),
        )?;
    }
    Ok(())
}

fn count(twin: &mut Twin) -> Checked {
    for due in Due::every(&[1, 7]) {
        let (part, meter) = (if due.is(1) { 257 } else { 1 }, kept(&due).meter);
        for (number, op) in [(0, 0x02), (0, 0x01), (12, 0), (6, 0), (0, 0x06)] {
            let call = Counting {
                part,
                meter,
                number,
                op,
            };
            same("count", &twin.count(call)?.0, &due.first())?;
        }
    }
    Ok(())
}
