//! Both emulators in step: every call goes to both, with an array each, and
//! every answer, every output byte and the array are compared.

use tunebriar::ffi::{self, Numbers};

use crate::bytes::{RECORD, aim, hex};
use crate::calls::{Call, Counting, Kept, Playing, lent_meter, meter_of, record_of, regs_of};
#[cfg(feature = "jobs")]
use crate::calls::{Job, bill_of};
use crate::guarded::Guarded;
use crate::reached::{Entry, Reached};
use crate::rng::Rng;
use crate::{Checked, SIZE, same};

/// How many calls pass between two comparisons of the whole array, unless told
/// otherwise. What a call is aimed at is compared after every call.
const WHOLE_EVERY: u64 = 4_096;
/// What lies before and after a lent meter, and must stay.
const GUARD: ffi::Meter = ffi::Meter {
    programs: 0x5A5A_5A5A,
    erases: 0xA5A5_A5A5,
    register_writes: 0x3C3C_3C3C,
    ignored: 0xC3C3_C3C3,
};

/// The two of them.
#[derive(Debug)]
pub struct Twin {
    /// What the answers have been so far.
    pub reached: Reached,
    first: Guarded,
    second: Guarded,
    lent: Guarded,
    mirror: Vec<u8>,
    every: u64,
    since: u64,
    calls: u64,
}

impl Twin {
    /// Two arrays, all FF. `every` says after how many calls the whole array
    /// is compared.
    #[must_use]
    pub fn new(every: Option<u64>) -> Twin {
        Twin {
            reached: Reached::default(),
            first: filled(0xFF),
            second: filled(0xFF),
            lent: Guarded::new(0, 0),
            mirror: Vec::new(),
            every: every.unwrap_or(WHOLE_EVERY),
            since: 0,
            calls: 0,
        }
    }

    /// After a finding the two arrays may differ: two new ones, so that the
    /// next check speaks for itself.
    pub fn renew(&mut self, every: Option<u64>) {
        let reached = core::mem::take(&mut self.reached);
        *self = Twin {
            reached,
            ..Twin::new(every)
        };
    }

    /// The two arrays, the first's first.
    pub fn arrays(&mut self) -> (&mut [u8], &mut [u8]) {
        (self.first.lent_mut(), self.second.lent_mut())
    }

    /// The first's array.
    #[must_use]
    pub fn array(&self) -> &[u8] {
        self.first.lent()
    }

    /// What the first has put out, or the tape it has written.
    #[must_use]
    pub fn written(&self) -> &[u8] {
        self.lent.lent()
    }

    /// Every byte of both arrays.
    pub fn set_all(&mut self, byte: u8) {
        self.first.lent_mut().fill(byte);
        self.second.lent_mut().fill(byte);
    }

    /// Some bytes of both arrays.
    pub fn set(&mut self, at: usize, bytes: &[u8]) {
        for array in [&mut self.first, &mut self.second] {
            array.lent_mut()[at..at + bytes.len()].copy_from_slice(bytes);
        }
    }

    /// Any bytes in both arrays, from `at` on; an array that is all FF says
    /// little about a program.
    pub fn scribble(&mut self, rng: &mut Rng, at: usize, length: usize) {
        let end = SIZE.min(at + length);
        rng.fill(&mut self.first.lent_mut()[at..end]);
        let bytes = &self.first.lent()[at..end];
        self.second.lent_mut()[at..end].copy_from_slice(bytes);
    }

    /// One transaction by both.
    ///
    /// # Errors
    ///
    /// Where the two differ in anything.
    pub fn transact(&mut self, call: &Call) -> Checked<second::Answer> {
        self.transacted(call)
            .map_err(|found| format!("{found}\n  {call}"))
    }

    fn transacted(&mut self, call: &Call) -> Checked<second::Answer> {
        self.prepare(call.out);
        let array = self.first.lent_as(call.array);
        let out = self.lent.lent_mut();
        let first = ffi::transact(
            call.numbers,
            array.into(),
            out.into(),
            call.bytes[..].into(),
        );
        let second = self.transacted_by_second(call);
        if second.number == 0 {
            self.reached
                .carried_out(call.bytes.first().copied().unwrap_or(0));
        }
        self.answers(Entry::Transact, first, second)?;
        self.recount(call, first)?;
        self.outputs()?;
        self.touched(&call.bytes, second.number == 0)?;
        self.now_and_then()?;
        Ok(second)
    }

    fn transacted_by_second(&mut self, call: &Call) -> second::Answer {
        let Numbers {
            part,
            regs,
            meter,
            leftover,
            wp,
        } = call.numbers;
        let array = self.second.lent_as(call.array);
        let (regs, meter) = (regs_of(regs), meter_of(meter));
        let out = &mut self.mirror;
        second::transact(part, regs, meter, leftover, wp, array, out, &call.bytes)
    }

    /// The meter handed in, brought up to date by what was answered, is the
    /// meter answered.
    fn recount(&mut self, call: &Call, answer: ffi::Answer) -> Checked {
        let Numbers { part, meter, .. } = call.numbers;
        // Where no byte was sent, one that would count must not.
        let op = call.bytes.first().map_or(0x02, |&byte| u32::from(byte));
        let (_, counted) = self.count(Counting {
            part,
            meter,
            number: answer.number,
            op,
        })?;
        same("counted by the answer", &counted, &answer.meter)
    }

    /// A meter by itself, brought up to date by both: the number and the meter
    /// afterwards.
    ///
    /// # Errors
    ///
    /// Where the two differ in anything, or the first writes beside the meter.
    pub fn count(&mut self, call: Counting) -> Checked<(u32, ffi::Meter)> {
        let Counting {
            part,
            meter,
            number,
            op,
        } = call;
        let mut lent = [GUARD, meter, GUARD];
        let first = ffi::count(part, &mut lent[1], number, op);
        let (before, mut mirror) = (meter_of(meter), meter_of(meter));
        let second = second::count(part, &mut mirror, number, op);
        self.reached.answered(Entry::Count, second);
        self.reached.counted(before, mirror);
        let expected = (second, [GUARD, lent_meter(mirror), GUARD]);
        let found = same("number, meter between guards", &(first, lent), &expected);
        found.map_err(|found| format!("{found}\n  {call}"))?;
        Ok((first, lent[1]))
    }

    /// A finish event by both.
    ///
    /// # Errors
    ///
    /// Where the two differ in anything.
    pub fn finish(&mut self, part: u32, regs: ffi::Regs) -> Checked<second::Event> {
        let first = ffi::finish(part, regs);
        self.event(
            Entry::Finish,
            regs,
            first,
            second::finish(part, regs_of(regs)),
        )
    }

    /// A power cycle by both.
    ///
    /// # Errors
    ///
    /// Where the two differ in anything.
    pub fn power_cycle(&mut self, part: u32, regs: ffi::Regs) -> Checked<second::Event> {
        let first = ffi::power_cycle(part, regs);
        let second = second::power_cycle(part, regs_of(regs));
        self.event(Entry::PowerCycle, regs, first, second)
    }

    fn event(
        &mut self,
        entry: Entry,
        from: ffi::Regs,
        first: ffi::Event,
        second: second::Event,
    ) -> Checked<second::Event> {
        self.reached.answered(entry, second.number);
        let got = (first.number, first.index, regs_of(first.regs));
        let expected = (second.number, second.index, second.regs);
        same(format_args!("{entry:?} from {from:?}"), &got, &expected)?;
        Ok(second)
    }

    /// One replay by both.
    ///
    /// # Errors
    ///
    /// Where the two differ in anything.
    pub fn replay(&mut self, call: &Playing) -> Checked<second::Answer> {
        self.replayed(call)
            .map_err(|found| format!("{found}\n  {call}"))
    }

    fn replayed(&mut self, call: &Playing) -> Checked<second::Answer> {
        let first = self.replayed_by_first(call);
        let second = self.replayed_by_second(call);
        self.answers(call.entry(), first, second)?;
        for record in call.tape.chunks_exact(RECORD) {
            let sent = usize::from(u16::from_be_bytes([record[0], record[1]]));
            let bytes = &record[4..4 + sent.min(RECORD - 4)];
            self.touched(bytes, second.number == 0)?;
        }
        self.now_and_then()?;
        Ok(second)
    }

    fn replayed_by_first(&mut self, call: &Playing) -> ffi::Answer {
        let Kept { regs, meter } = call.kept;
        let (array, tape) = (self.first.lent_as(call.array).into(), call.tape.into());
        match call.k {
            Some(k) => ffi::replay_first(call.part, regs, meter, array, tape, k),
            None => ffi::replay(call.part, regs, meter, array, tape),
        }
    }

    fn replayed_by_second(&mut self, call: &Playing) -> second::Answer {
        let (regs, meter) = (regs_of(call.kept.regs), meter_of(call.kept.meter));
        let array = self.second.lent_as(call.array);
        match call.k {
            Some(k) => second::replay_first(call.part, regs, meter, array, call.tape, k),
            None => second::replay(call.part, regs, meter, array, call.tape),
        }
    }

    /// A read at a place of a tape by both.
    ///
    /// # Errors
    ///
    /// Where the two differ in anything.
    pub fn read(&mut self, tape: &[u8], place: u64) -> Checked<second::Record> {
        let first = ffi::read(tape.into(), place);
        let second = second::read(tape, place);
        self.reached.answered(Entry::Read, second.number);
        self.reached.read(second.kind);
        let found = same("answer", &record_of(first), &second);
        found.map_err(|found| format!("{found}\n  read at {place} of {}", hex(tape)))?;
        Ok(second)
    }

    /// A translation by both; the first's tape is then in [`Twin::written`].
    ///
    /// # Errors
    ///
    /// Where the two differ in anything.
    #[cfg(feature = "jobs")]
    pub fn translate(&mut self, job: &Job) -> Checked<second::Tape> {
        self.prepare(job.tape);
        let (steps, payload) = (&job.steps[..], &job.payload[..]);
        let tape = self.lent.lent_mut().into();
        let first = ffi::translate(job.part, job.setting, steps.into(), payload.into(), tape);
        let second = second::translate(job.part, job.setting, steps, payload, &mut self.mirror);
        self.reached.answered(Entry::Translate, second.number);
        let got = (first.number, first.index, first.length);
        let expected = (second.number, second.index, second.length);
        let found = same("answer", &got, &expected).and_then(|()| self.outputs());
        found.map_err(|found| format!("{found}\n  translate {job}"))?;
        Ok(second)
    }

    /// A quote by both.
    ///
    /// # Errors
    ///
    /// Where the two differ in anything.
    #[cfg(feature = "jobs")]
    pub fn quote(&mut self, job: &Job) -> Checked<second::Bill> {
        let (steps, payload) = (&job.steps[..], &job.payload[..]);
        let first = ffi::quote(job.part, job.setting, steps.into(), payload.into());
        let second = second::quote(job.part, job.setting, steps, payload);
        self.reached.answered(Entry::Quote, second.number);
        let found = same("answer", &bill_of(first), &second);
        found.map_err(|found| format!("{found}\n  quote {job}"))?;
        Ok(second)
    }

    /// The whole array, and what lies around the first's.
    ///
    /// # Errors
    ///
    /// The first address that differs.
    pub fn whole(&mut self) -> Checked {
        self.since = 0;
        self.stretch(0..SIZE)?;
        if self.first.intact() {
            return Ok(());
        }
        Err("something was written past the array's ends".into())
    }

    /// An output or a tape for each, alike, and holding what changes from call
    /// to call and is never FF, so that a byte not written is seen.
    fn prepare(&mut self, length: usize) {
        self.calls += 1;
        let pattern = (self.calls % 251) as u8;
        self.lent.prepare(length, pattern);
        self.mirror.clear();
        self.mirror.resize(length, pattern);
    }

    fn answers(&mut self, entry: Entry, first: ffi::Answer, second: second::Answer) -> Checked {
        self.reached.answered(entry, second.number);
        let Kept { regs, meter } = Kept::from(second);
        let expected = ffi::Answer {
            number: second.number,
            index: second.index,
            regs,
            meter,
        };
        same("answer", &first, &expected)
    }

    fn outputs(&self) -> Checked {
        if !self.lent.intact() {
            return Err("something was written past the output's ends".into());
        }
        let (first, second) = (self.lent.lent(), &self.mirror[..]);
        match differing(first, second) {
            None => Ok(()),
            Some(at) => Err(format!(
                "output byte {at}: {:02X}, expected {:02X}",
                first[at], second[at]
            )),
        }
    }

    /// What a transaction is aimed at; everything only where it was served.
    fn touched(&self, bytes: &[u8], served: bool) -> Checked {
        match aim(bytes) {
            Some(range) if served || range.len() < SIZE => self.stretch(range),
            _ => Ok(()),
        }
    }

    fn stretch(&self, range: core::ops::Range<usize>) -> Checked {
        let start = range.start;
        let (first, second) = (
            &self.first.lent()[range.clone()],
            &self.second.lent()[range],
        );
        match differing(first, second) {
            None => Ok(()),
            Some(at) => Err(format!(
                "array byte {:06X}: {:02X}, expected {:02X}",
                start + at,
                first[at],
                second[at]
            )),
        }
    }

    fn now_and_then(&mut self) -> Checked {
        self.since += 1;
        if self.since < self.every {
            return Ok(());
        }
        let calls = self.since;
        self.whole()
            .map_err(|found| format!("{found}, since one of the last {calls} calls"))
    }
}

fn filled(byte: u8) -> Guarded {
    let mut array = Guarded::new(SIZE, 0x5A);
    array.lent_mut().fill(byte);
    array
}

/// Where two stretches first differ. Equality is asked first, since it is quick.
fn differing(first: &[u8], second: &[u8]) -> Option<usize> {
    if first == second {
        return None;
    }
    first.iter().zip(second).position(|(a, b)| a != b)
}

#[cfg(test)]
mod tests {
    use super::*;
    use crate::bytes::{at, program, sent};

    /// A twin whose first array holds one byte that the second's has not.
    fn bent(at: usize) -> Twin {
        let mut twin = Twin::new(Some(2));
        twin.arrays().0[at] = 0x7F;
        twin
    }

    fn found(twin: &mut Twin, bytes: &[u8]) -> bool {
        twin.transact(&Call::new(Kept::awake(0), bytes)).is_err()
    }

    #[test]
    fn what_a_call_is_aimed_at_is_compared_at_once() {
        assert!(found(&mut bent(0x1234), &program(0x1200, &[0])));
        assert!(found(&mut bent(0x1234), &at(0x20, 0x1FFF)));
        assert!(found(&mut bent(0x1234), &[0x03, 0, 0x12, 0x34, 0]));
        assert!(!found(&mut bent(0x1234), &program(0x3400, &[0])));
        let tape = sent(&program(0x1200, &[0]));
        assert!(
            bent(0x1234)
                .replay(&Playing::new(Kept::awake(0), &tape))
                .is_err()
        );
    }

    #[test]
    fn the_rest_is_compared_every_so_often() {
        let mut twin = bent(0x1234);
        assert!(!found(&mut twin, &[0x06]));
        assert!(found(&mut twin, &[0x06]));
        assert!(bent(SIZE - 1).whole().is_err());
        assert!(Twin::new(None).whole().is_ok());
    }
}
