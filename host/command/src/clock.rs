//! The time that goes into the book.

use crate::error::Error;
use rusqlite::Connection;

/// How a time is written: UTC, to the second.
const FORM: &str = "%Y-%m-%dT%H:%M:%SZ";

/// The time that the call names, or else the clock's.
///
/// # Errors
///
/// Where the word is no time.
pub fn now(book: &Connection, word: Option<&str>) -> Result<String, Error> {
    let told = |word: &str| -> Result<Option<String>, Error> {
        // Adding nothing makes it count, so that no November has 31 days.
        let form = "SELECT strftime(?1, ?2, '+0 days')";
        Ok(book.query_row(form, (FORM, word), |row| row.get(0))?)
    };
    let time = told(word.unwrap_or("now"))?;
    match (time, word) {
        (Some(time), None) => Ok(time),
        (Some(time), Some(word)) if time == word => Ok(time),
        _ => Err(Error::wrong(
            "--now is a time in UTC, as 2026-11-30T18:00:00Z",
        )),
    }
}

/// Whether a word is a month, as `2026-11`.
///
/// # Errors
///
/// Words, where it is none.
pub fn month(word: &str) -> Result<String, String> {
    let digits = |text: &str| text.bytes().all(|letter| letter.is_ascii_digit());
    let fits = match word.split_once('-') {
        Some((year, month)) if year.len() == 4 && month.len() == 2 => {
            digits(year) && digits(month) && ("01"..="12").contains(&month)
        }
        _ => false,
    };
    match fits {
        true => Ok(word.to_string()),
        false => Err(format!("'{word}' is no month, as 2026-11")),
    }
}

#[cfg(test)]
mod tests {
    use super::*;

    #[test]
    fn times_and_months_are_taken_or_refused() {
        let book = Connection::open_in_memory().expect("a book");
        let time = "2026-11-30T18:00:00Z";
        assert_eq!(now(&book, Some(time)).as_deref(), Ok(time));
        assert_eq!(now(&book, None).map(|time| time.len()), Ok(20));
        for bad in ["", "now", "2026-11-31T18:00:00Z", "2026-11-30", "x"] {
            assert!(now(&book, Some(bad)).is_err(), "{bad}");
        }
        assert_eq!(month("2026-11").as_deref(), Ok("2026-11"));
        for bad in [
            "",
            "2026",
            "2026-13",
            "2026-00",
            "26-11",
            "2026-1",
            "２０２６-11",
        ] {
            assert!(month(bad).is_err(), "{bad}");
        }
    }
}
