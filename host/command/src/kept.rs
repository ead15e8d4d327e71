//! What this call has in the book by now, for a message about something else
//! that went wrong afterwards: whoever tries again would pay twice.

use std::ops::Range;
use std::sync::Mutex;

static KEPT: Mutex<Option<String>> = Mutex::new(None);

/// A new call has kept nothing yet.
pub fn forget() {
    if let Ok(mut kept) = KEPT.lock() {
        *kept = None;
    }
}

/// The book has been changed, by these plays.
pub fn note(plays: Range<i64>) {
    if let Ok(mut kept) = KEPT.lock() {
        *kept = Some(words(&plays));
    }
}

/// What was kept, as `; play 4 is in the book`; nothing, where nothing was.
#[must_use]
pub fn told() -> String {
    let kept = KEPT.lock().ok().and_then(|kept| kept.clone());
    kept.map_or(String::new(), |kept| format!("; {kept}"))
}

fn words(plays: &Range<i64>) -> String {
    match plays.end - plays.start {
        ..=0 => "the change is in the book".to_string(),
        1 => format!("play {} is in the book", plays.start),
        _ => format!("plays {} to {} are in the book", plays.start, plays.end - 1),
    }
}
