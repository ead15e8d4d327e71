//! The C interface as `include/tunebriar.h` declares it, and the only unsafe
//! code of the host.
//!
//! Each function here is safe: what the header asks of a caller's pointers is
//! kept by [`Lent`] and [`LentMut`], which are made from slices or are null
//! with length 0, and by Rust's rule that what is lent to be written is lent
//! once. A lent meter is a `&mut`, so it is never null. Any number may be handed
//! in; use the typed functions of the crate unless wild numbers are what you
//! want.

use core::marker::PhantomData;
use core::ptr;

/// `tb_regs`: the registers as the caller keeps them.
#[repr(C)]
#[derive(Clone, Copy, Debug, Default, PartialEq, Eq)]
pub struct Regs {
    /// S15 to S0.
    pub status: u32,
    /// 1 awake, 0 asleep.
    pub awake: u32,
}

/// `tb_meter`: the four counts.
#[repr(C)]
#[derive(Clone, Copy, Debug, Default, PartialEq, Eq)]
pub struct Meter {
    /// Accepted programs.
    pub programs: u32,
    /// Accepted erases.
    pub erases: u32,
    /// Accepted status writes.
    pub register_writes: u32,
    /// Ignored transactions.
    pub ignored: u32,
}

/// `tb_answer`: of a transaction or a replay.
#[repr(C)]
#[derive(Clone, Copy, Debug, Default, PartialEq, Eq)]
pub struct Answer {
    /// 0, a verdict 10 to 16, or a refusal.
    pub number: u32,
    /// The first bad record's, else 0.
    pub index: u64,
    /// The registers afterwards.
    pub regs: Regs,
    /// The meter afterwards.
    pub meter: Meter,
}

/// `tb_event`: of a finish event or a power cycle.
#[repr(C)]
#[derive(Clone, Copy, Debug, Default, PartialEq, Eq)]
pub struct Event {
    /// 0 or a refusal.
    pub number: u32,
    /// Always 0.
    pub index: u64,
    /// The registers afterwards.
    pub regs: Regs,
}

/// `tb_record`: of a read at a place of a tape.
#[repr(C)]
#[derive(Clone, Copy, Debug, Default, PartialEq, Eq)]
pub struct Record {
    /// 0 transaction, 1 finish, 2 power cycle, 3 end, 4 fault.
    pub kind: u32,
    /// 30 or 31 at a fault, else 0.
    pub number: u32,
    /// Bytes of the transaction.
    pub length: u32,
    /// Leftover bits of the transaction.
    pub leftover: u32,
    /// 1 where the transaction holds /WP high.
    pub wp: u32,
    /// Where the transaction's bytes begin in the tape.
    pub start: u64,
    /// The place after a record; the same place at the end or a fault.
    pub next: u64,
}

/// `tb_tape`: of a translation.
#[cfg(feature = "jobs")]
#[repr(C)]
#[derive(Clone, Copy, Debug, Default, PartialEq, Eq)]
pub struct Tape {
    /// 0 or a refusal.
    pub number: u32,
    /// The first bad record's, else 0.
    pub index: u64,
    /// Bytes of tape written.
    pub length: u64,
}

/// `tb_bill`: of a quote.
#[cfg(feature = "jobs")]
#[repr(C)]
#[derive(Clone, Copy, Debug, Default, PartialEq, Eq)]
pub struct Bill {
    /// 0 or a refusal.
    pub number: u32,
    /// The first bad record's, else 0.
    pub index: u64,
    /// The rise of programs.
    pub programs: u32,
    /// The rise of erases.
    pub erases: u32,
    /// The rise of register writes.
    pub register_writes: u32,
    /// Bytes of the tape.
    pub length: u64,
}

/// Bytes lent to be read, as C has them: a pointer, then a length.
#[derive(Clone, Copy, Debug)]
pub struct Lent<'a> {
    pointer: *const u8,
    length: usize,
    lender: PhantomData<&'a [u8]>,
}

impl Lent<'_> {
    /// No bytes, and a null pointer.
    pub const NULL: Lent<'static> = Lent {
        pointer: ptr::null(),
        length: 0,
        lender: PhantomData,
    };
}

impl<'a> From<&'a [u8]> for Lent<'a> {
    fn from(bytes: &'a [u8]) -> Lent<'a> {
        Lent {
            pointer: bytes.as_ptr(),
            length: bytes.len(),
            lender: PhantomData,
        }
    }
}

/// Bytes lent to be written, and to nobody else meanwhile.
#[derive(Debug)]
pub struct LentMut<'a> {
    pointer: *mut u8,
    length: usize,
    lender: PhantomData<&'a mut [u8]>,
}

impl LentMut<'_> {
    /// No bytes, and a null pointer.
    pub const NULL: LentMut<'static> = LentMut {
        pointer: ptr::null_mut(),
        length: 0,
        lender: PhantomData,
    };
}

impl<'a> From<&'a mut [u8]> for LentMut<'a> {
    fn from(bytes: &'a mut [u8]) -> LentMut<'a> {
        LentMut {
            pointer: bytes.as_mut_ptr(),
            length: bytes.len(),
            lender: PhantomData,
        }
    }
}

#[link(name = "tunebriar", kind = "static")]
unsafe extern "C" {
    fn tb_transact(
        part: u32,
        regs: Regs,
        meter: Meter,
        leftover: u32,
        wp: u32,
        array: *mut u8,
        array_len: usize,
        out: *mut u8,
        out_len: usize,
        bytes: *const u8,
        n: usize,
    ) -> Answer;
    safe fn tb_finish(part: u32, regs: Regs) -> Event;
    safe fn tb_power_cycle(part: u32, regs: Regs) -> Event;
    safe fn tb_count(part: u32, meter: &mut Meter, number: u32, op: u32) -> u32;
    fn tb_replay(
        part: u32,
        regs: Regs,
        meter: Meter,
        array: *mut u8,
        array_len: usize,
        tape: *const u8,
        tape_len: usize,
    ) -> Answer;
    fn tb_replay_first(
        part: u32,
        regs: Regs,
        meter: Meter,
        array: *mut u8,
        array_len: usize,
        tape: *const u8,
        tape_len: usize,
        k: u64,
    ) -> Answer;
    #[cfg(feature = "jobs")]
    fn tb_translate(
        part: u32,
        setting: u32,
        job: *const u8,
        job_len: usize,
        payload: *const u8,
        payload_len: usize,
        tape: *mut u8,
        tape_len: usize,
    ) -> Tape;
    #[cfg(feature = "jobs")]
    fn tb_quote(
        part: u32,
        setting: u32,
        job: *const u8,
        job_len: usize,
        payload: *const u8,
        payload_len: usize,
    ) -> Bill;
    fn tb_read(tape: *const u8, tape_len: usize, place: u64) -> Record;
}

/// What of a transaction is a number.
#[derive(Clone, Copy, Debug, Default, PartialEq, Eq)]
pub struct Numbers {
    /// The part number.
    pub part: u32,
    /// The registers.
    pub regs: Regs,
    /// The meter.
    pub meter: Meter,
    /// Bits clocked in after the last whole byte.
    pub leftover: u32,
    /// The level of /WP: 0 is low.
    pub wp: u32,
}

/// `tb_transact`.
#[must_use]
pub fn transact(with: Numbers, array: LentMut, out: LentMut, bytes: Lent) -> Answer {
    // SAFETY: each pointer is valid for its length, or null with length 0; the
    // two that are written are lent to this call alone.
    unsafe {
        tb_transact(
            with.part,
            with.regs,
            with.meter,
            with.leftover,
            with.wp,
            array.pointer,
            array.length,
            out.pointer,
            out.length,
            bytes.pointer,
            bytes.length,
        )
    }
}

/// `tb_finish`.
#[must_use]
pub fn finish(part: u32, regs: Regs) -> Event {
    tb_finish(part, regs)
}

/// `tb_power_cycle`.
#[must_use]
pub fn power_cycle(part: u32, regs: Regs) -> Event {
    tb_power_cycle(part, regs)
}

/// `tb_count`: 0 or a refusal, and `meter` brought up to date where it lies.
#[must_use]
pub fn count(part: u32, meter: &mut Meter, number: u32, op: u32) -> u32 {
    tb_count(part, meter, number, op)
}

/// `tb_replay`.
#[must_use]
pub fn replay(part: u32, regs: Regs, meter: Meter, array: LentMut, tape: Lent) -> Answer {
    // SAFETY: as in `transact`.
    unsafe {
        tb_replay(
            part,
            regs,
            meter,
            array.pointer,
            array.length,
            tape.pointer,
            tape.length,
        )
    }
}

/// `tb_replay_first`.
#[must_use]
pub fn replay_first(
    part: u32,
    regs: Regs,
    meter: Meter,
    array: LentMut,
    tape: Lent,
    k: u64,
) -> Answer {
    // SAFETY: as in `transact`.
    unsafe {
        tb_replay_first(
            part,
            regs,
            meter,
            array.pointer,
            array.length,
            tape.pointer,
            tape.length,
            k,
        )
    }
}

/// `tb_translate`.
#[cfg(feature = "jobs")]
#[must_use]
pub fn translate(part: u32, setting: u32, job: Lent, payload: Lent, tape: LentMut) -> Tape {
    // SAFETY: as in `transact`.
    unsafe {
        tb_translate(
            part,
            setting,
            job.pointer,
            job.length,
            payload.pointer,
            payload.length,
            tape.pointer,
            tape.length,
        )
    }
}

/// `tb_quote`.
#[cfg(feature = "jobs")]
#[must_use]
pub fn quote(part: u32, setting: u32, job: Lent, payload: Lent) -> Bill {
    // SAFETY: each pointer is valid for its length, or null with length 0.
    unsafe {
        tb_quote(
            part,
            setting,
            job.pointer,
            job.length,
            payload.pointer,
            payload.length,
        )
    }
}

/// `tb_read`.
#[must_use]
pub fn read(tape: Lent, place: u64) -> Record {
    // SAFETY: as in `quote`.
    unsafe { tb_read(tape.pointer, tape.length, place) }
}

/// The sizes and places that `tests/c/layout.c` asks of the header, so that the
/// two declarations cannot drift apart unseen.
const _: () = {
    use core::mem::{align_of, offset_of, size_of};
    assert!(size_of::<Regs>() == 8 && offset_of!(Regs, awake) == 4);
    assert!(size_of::<Meter>() == 16 && offset_of!(Meter, ignored) == 12);
    assert!(offset_of!(Meter, erases) == 4 && offset_of!(Meter, register_writes) == 8);
    assert!(align_of::<Meter>() == 4);
    assert!(size_of::<Answer>() == 40 && offset_of!(Answer, index) == 8);
    assert!(offset_of!(Answer, regs) == 16 && offset_of!(Answer, meter) == 24);
    assert!(size_of::<Event>() == 24 && offset_of!(Event, regs) == 16);
    assert!(size_of::<Record>() == 40 && offset_of!(Record, wp) == 16);
    assert!(offset_of!(Record, start) == 24 && offset_of!(Record, next) == 32);
};

#[cfg(feature = "jobs")]
const _: () = {
    use core::mem::{offset_of, size_of};
    assert!(size_of::<Tape>() == 24 && offset_of!(Tape, length) == 16);
    assert!(size_of::<Bill>() == 40 && offset_of!(Bill, programs) == 16);
    assert!(offset_of!(Bill, register_writes) == 24 && offset_of!(Bill, length) == 32);
};
