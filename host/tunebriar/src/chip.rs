//! Transactions, events and replays.

use crate::{Part, Refusal, Registers, State, Verdict, ffi};

/// Bytes clocked in while the chip is selected, and what comes with them.
#[derive(Clone, Copy, Debug, PartialEq, Eq)]
pub struct Transaction<'a> {
    /// The whole bytes.
    pub bytes: &'a [u8],
    /// Bits clocked in after them, 0 to 7.
    pub leftover: u8,
    /// The level of /WP.
    pub wp_high: bool,
}

impl<'a> Transaction<'a> {
    /// These bytes, no leftover bits, /WP high.
    #[must_use]
    pub fn of(bytes: &'a [u8]) -> Transaction<'a> {
        Transaction {
            bytes,
            leftover: 0,
            wp_high: true,
        }
    }
}

/// One transaction on the lent `array`. As many bytes of `out` are written as
/// were sent, FF where the chip drives nothing; the rest of `out` stays.
///
/// # Errors
///
/// Refusals 1 to 7.
///
/// ```
/// use tunebriar::{Part, SIZE, State, Transaction, transact};
///
/// // A read that runs over the end of the array goes on at its beginning.
/// let mut array = vec![0xFF; SIZE];
/// (array[SIZE - 1], array[0]) = (0xA7, 0x5C);
/// let mut out = [0; 6];
/// let sent = Transaction::of(&[0x03, 0x1F, 0xFF, 0xFF, 0, 0]);
/// transact(Part::Fm25q16, State::default(), sent, &mut array, &mut out)?;
/// assert_eq!(out, [0xFF, 0xFF, 0xFF, 0xFF, 0xA7, 0x5C]);
/// # Ok::<(), tunebriar::Refusal>(())
/// ```
pub fn transact(
    part: Part,
    state: State,
    sent: Transaction,
    array: &mut [u8],
    out: &mut [u8],
) -> Result<(Verdict, State), Refusal> {
    let numbers = ffi::Numbers {
        part: part.number(),
        regs: state.registers.lent(),
        meter: state.meter.lent(),
        leftover: u32::from(sent.leftover),
        wp: u32::from(sent.wp_high),
    };
    let answer = ffi::transact(numbers, array.into(), out.into(), sent.bytes.into());
    if (1..=7).contains(&answer.number) {
        return Err(Refusal::new(answer.number, answer.index));
    }
    let verdict = Verdict::answered(answer.number, sent.bytes);
    Ok((verdict, State::answered(answer)))
}

/// A finish event: what the chip was busy with is done.
///
/// # Errors
///
/// Refusals 1 and 3.
pub fn finish(part: Part, registers: Registers) -> Result<Registers, Refusal> {
    after(ffi::finish(part.number(), registers.lent()))
}

/// A power cycle.
///
/// # Errors
///
/// Refusals 1 and 3.
pub fn power_cycle(part: Part, registers: Registers) -> Result<Registers, Refusal> {
    after(ffi::power_cycle(part.number(), registers.lent()))
}

fn after(event: ffi::Event) -> Result<Registers, Refusal> {
    Refusal::of(event.number, event.index)?;
    Ok(Registers::answered(event.regs))
}

/// Plays a tape on the lent `array` and drops the outputs.
///
/// # Errors
///
/// Refusals 1, 2, 3, 30, 31 and 7, all before the first record is played.
///
/// ```
/// use tunebriar::{Part, SIZE, State, replay};
///
/// // Records of 264 bytes: a write enable with /WP high, then an erase of all.
/// let mut tape = [0; 528];
/// tape[..5].copy_from_slice(&[0, 1, 0, 8, 0x06]);
/// tape[264..269].copy_from_slice(&[0, 1, 0, 8, 0xC7]);
/// let mut array = vec![0; SIZE];
/// let after = replay(Part::Fm25q16, State::default(), &mut array, &tape)?;
/// assert!(array.iter().all(|&byte| byte == 0xFF));
/// assert!(after.registers.busy() && after.meter.erases == 1);
/// # Ok::<(), tunebriar::Refusal>(())
/// ```
pub fn replay(part: Part, state: State, array: &mut [u8], tape: &[u8]) -> Result<State, Refusal> {
    let (regs, meter) = (state.registers.lent(), state.meter.lent());
    played(ffi::replay(
        part.number(),
        regs,
        meter,
        array.into(),
        tape.into(),
    ))
}

/// Checks the whole tape as [`replay`] does, then plays its first `k` records,
/// or all where it has fewer.
///
/// # Errors
///
/// Those of [`replay`].
pub fn replay_first(
    part: Part,
    state: State,
    array: &mut [u8],
    tape: &[u8],
    k: u64,
) -> Result<State, Refusal> {
    let (regs, meter) = (state.registers.lent(), state.meter.lent());
    let (array, tape) = (array.into(), tape.into());
    played(ffi::replay_first(
        part.number(),
        regs,
        meter,
        array,
        tape,
        k,
    ))
}

fn played(answer: ffi::Answer) -> Result<State, Refusal> {
    Refusal::of(answer.number, answer.index)?;
    Ok(State::answered(answer))
}
