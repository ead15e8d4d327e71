//! Tunebriar for Rust: a proved emulator and job translator for the FM25Q16
//! serial flash chip, which bills what the chip was made to do.
//!
//! The library itself is proved and speaks C; this crate lends it slices and
//! gives its numbers names. It adds no rule of its own. The caller keeps
//! everything: the two-megabyte array, the registers, the meter.
//!
//! ```
//! use tunebriar::{Kind, Part, SIZE, State, Transaction, Verdict, transact};
//!
//! let mut array = vec![0xFF; SIZE];
//! let mut out = [0];
//! let sent = Transaction::of(&[0x06]);
//! let (verdict, after) = transact(Part::Fm25q16, State::default(), sent, &mut array, &mut out)?;
//!
//! assert_eq!(verdict, Verdict::CarriedOut(Kind::WriteEnable));
//! assert!(after.registers.wel());
//! assert_eq!(out, [0xFF]);
//! # Ok::<(), tunebriar::Refusal>(())
//! ```
//!
//! What a caller did wrong is a [`Refusal`] and changes nothing. What the chip
//! ignores is no refusal but a [`Verdict`], and it is counted:
//!
//! ```
//! use tunebriar::{Part, Reason, SIZE, State, Transaction, Verdict, transact};
//!
//! let (mut array, mut out) = (vec![0xFF; SIZE], [0; 2]);
//! let sent = Transaction::of(&[0x06, 0x00]);
//! let (verdict, after) = transact(Part::Fm25q16, State::default(), sent, &mut array, &mut out)?;
//! assert_eq!(verdict, Verdict::Ignored(Reason::WrongSize));
//! assert_eq!((verdict.number(), after.meter.ignored), (13, 1));
//!
//! let refused = transact(Part::Fm25q16, after, sent, &mut array, &mut out[..1]);
//! assert_eq!(refused.unwrap_err().number(), 6);
//! # Ok::<(), tunebriar::Refusal>(())
//! ```

#[allow(
    unsafe_code,
    reason = "the C interface is called here and nowhere else"
)]
pub mod ffi;

mod chip;
#[cfg(feature = "jobs")]
mod job;
mod refusal;
mod state;
mod tape;
mod verdict;

pub use chip::{Transaction, finish, power_cycle, replay, replay_first, transact};
#[cfg(feature = "jobs")]
pub use job::{Bill, Step, Unit, quote, translate};
pub use refusal::Refusal;
pub use state::{Meter, Part, Registers, State};
pub use tape::{RECORD, Read, Reader, Record, read};
pub use verdict::{Kind, Reason, Verdict};

/// Bytes of the FM25Q16's array: the one length that is not refusal 2.
pub const SIZE: usize = 2_097_152;
