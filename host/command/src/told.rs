//! What a call has to say, for people and for programs.

use crate::error::Error;
use crate::output::print;
use serde_json::Value;

/// What a call that was served says.
#[derive(Debug, Default)]
pub struct Told {
    /// For people.
    pub text: String,
    /// The same for programs: `--json`.
    pub json: Value,
    /// An output that was asked for on standard output; then the words go to
    /// standard error.
    pub data: Option<Vec<u8>>,
    /// What was refused, though the call was served and is in the book.
    pub refused: Option<Error>,
}

impl Told {
    /// These words, and the same as a value.
    #[must_use]
    pub fn new(text: String, json: Value) -> Told {
        Told {
            text,
            json,
            ..Told::default()
        }
    }

    /// Prints it now, as one that is followed by others: JSON on a line.
    ///
    /// # Errors
    ///
    /// Where standard output cannot be written.
    pub fn tell(&self, json: bool) -> Result<(), Error> {
        match json {
            true => print(format!("{}\n", self.json).as_bytes()),
            false => print(self.text.as_bytes()),
        }
    }

    /// With what is to go to standard output.
    #[must_use]
    pub fn with_data(self, data: Option<Vec<u8>>) -> Told {
        Told { data, ..self }
    }
}
