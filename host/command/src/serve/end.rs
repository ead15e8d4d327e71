//! Why a session ended.

use crate::error::told;
use tunebriar::Refusal;

/// The end of a session; whatever it is, what was done before it is kept.
#[derive(Clone, Copy, Debug, PartialEq, Eq)]
pub enum End {
    /// The client went.
    Gone,
    /// The client went in the middle of a command.
    Cut,
    /// The client said nothing for too long, or took no answer.
    Silent,
    /// The server was told to end.
    Stopped,
    /// What came is no serprog.
    Strange,
    /// The library refused a transaction.
    Refused(Refusal),
    /// The tape is as long as a book takes.
    Full,
}

impl End {
    /// In words, where there is something to say.
    #[must_use]
    pub fn words(self) -> Option<String> {
        let words = match self {
            End::Gone => return None,
            End::Cut => "the client went inside a command",
            End::Silent => "the client was silent for too long",
            End::Stopped => "told to end",
            End::Strange => "what came is no serprog",
            End::Refused(refusal) => return Some(told(refusal)),
            End::Full => "a tape has no more room",
        };
        Some(words.to_string())
    }

    /// Whether a client that is still there has to go before there is a next.
    #[must_use]
    pub fn is_final(self) -> bool {
        matches!(self, End::Strange | End::Refused(_) | End::Full)
    }
}
