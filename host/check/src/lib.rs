//! Holds the proved library, through its C interface, against `second`, an
//! emulator, translator and reader that shares nothing with it.
//!
//! "First" is the proved library, "second" the other one, everywhere here.

#![forbid(unsafe_code)]

use core::fmt::{Debug, Display};

pub mod batches;
pub mod bytes;
pub mod calls;
pub mod counts;
pub mod edges;
pub mod generate;
pub mod grids;
pub mod guarded;
#[cfg(feature = "jobs")]
pub mod job_batches;
#[cfg(feature = "jobs")]
pub mod job_edges;
pub mod options;
pub mod orders;
pub mod reached;
pub mod readings;
pub mod rng;
pub mod suite;
pub mod tape_edges;
pub mod twin;
pub mod typed;

/// Bytes of the chip's array.
pub const SIZE: usize = 2_097_152;
/// A count that has no room left.
pub const FULL: u32 = 4_294_967_295;

/// Nothing to report, or what was found.
pub type Checked<T = ()> = Result<T, String>;

/// A finding where the two differ. Give `what` by `format_args!` where it takes
/// some making: it is made only for a finding.
///
/// # Errors
///
/// Says what differs, and how.
pub fn same<T: PartialEq + Debug>(what: impl Display, got: &T, expected: &T) -> Checked {
    if got == expected {
        return Ok(());
    }
    Err(format!("{what}: {got:?}, expected {expected:?}"))
}
