//! A month's bill as the book has it: who played what, and what the chips did.
//! Nothing here is added up or priced yet; that is done once, by `sums`.

use super::prices::Prices;

/// A month, with all that is billed in it.
#[derive(Clone, Debug, PartialEq, Eq)]
pub struct Bill {
    /// The month, as `2026-11`.
    pub month: String,
    /// When it was closed, in UTC; none while it is open.
    pub closed: Option<String>,
    /// What one of each costs.
    pub prices: Prices,
    /// The departments, by name.
    pub departments: Vec<Department>,
}

/// A department and its plays.
#[derive(Clone, Debug, Default, PartialEq, Eq)]
pub struct Department {
    /// Its name.
    pub name: String,
    /// How many boards it has.
    pub boards: u64,
    /// What was played on them, in the order of the book.
    pub plays: Vec<Play>,
}

/// A tape that was played on a board, or refused.
#[derive(Clone, Debug, Default, PartialEq, Eq)]
pub struct Play {
    /// Its number in the book.
    pub number: u64,
    /// The board's name.
    pub board: String,
    /// When it was played, in UTC.
    pub when: String,
    /// The tape's name.
    pub tape: String,
    /// The SHA-256 of the tape's bytes, in hex.
    pub sha256: String,
    /// Bytes of the tape.
    pub bytes: u64,
    /// Records of the tape.
    pub records: u64,
    /// What it raised.
    pub figures: Figures,
    /// Why it was refused, in words; then the figures are zero and nothing is
    /// billed.
    pub refusal: Option<String>,
}

/// What the chip was made to do.
#[derive(Clone, Copy, Debug, Default, PartialEq, Eq)]
pub struct Figures {
    /// Page programs carried out.
    pub programs: u64,
    /// Erases carried out.
    pub erases: u64,
    /// Status writes carried out.
    pub register_writes: u64,
    /// What the chip ignored.
    pub ignored: Ignored,
}

/// Transactions that the chip ignored, told apart twice: by what was sent, and
/// by the verdict.
#[derive(Clone, Copy, Debug, Default, PartialEq, Eq)]
pub struct Ignored {
    /// Page programs that were sent: 02.
    pub programs: u64,
    /// Erases that were sent: 20, 52, D8, C7, 60.
    pub erases: u64,
    /// Status writes that were sent: 01.
    pub register_writes: u64,
    /// All else that was sent.
    pub others: u64,
    /// The same transactions by verdict, 10 to 16.
    pub by_verdict: [u64; 7],
}
