//! Names as they are shown: how wide they are, and kept harmless.

use unicode_width::{UnicodeWidthChar, UnicodeWidthStr};

/// What stands for a letter that is not shown.
const STAND_IN: char = '\u{FFFD}';

/// Letters that no name should have: control characters, and the marks that
/// turn the direction of all that follows, or that XML does not know.
#[must_use]
pub fn unfit(letter: char) -> bool {
    let turns = matches!(
        letter,
        '\u{061C}' | '\u{200E}' | '\u{200F}' | '\u{202A}'..='\u{202E}' | '\u{2066}'..='\u{2069}'
    );
    let ends = matches!(letter, '\u{2028}' | '\u{2029}');
    let unknown = matches!(letter, '\u{FFFE}' | '\u{FFFF}');
    letter.is_control() || turns || ends || unknown
}

/// The text with a mark for each unfit letter, so that a name stays in its
/// line, its cell and its direction.
#[must_use]
pub fn plain(text: &str) -> String {
    let fit = |letter| if unfit(letter) { STAND_IN } else { letter };
    text.chars().map(fit).collect()
}

/// Text that is safe between tags and in double quotes.
#[must_use]
pub fn escaped(text: &str) -> String {
    let mut safe = String::new();
    for letter in plain(text).chars() {
        match letter {
            '&' => safe.push_str("&amp;"),
            '<' => safe.push_str("&lt;"),
            '>' => safe.push_str("&gt;"),
            '"' => safe.push_str("&quot;"),
            _ => safe.push(letter),
        }
    }
    safe
}

/// Columns of a terminal that the text takes; wide letters take two.
#[must_use]
pub fn width(text: &str) -> usize {
    text.width()
}

/// The text in pieces of at most so many columns, after blanks where it can.
#[must_use]
pub fn pieces(text: &str, room: usize) -> Vec<String> {
    let mut pieces = vec![];
    let mut rest = text;
    while width(rest) > room {
        let end = end_of_piece(rest, room);
        let (piece, after) = rest.split_at(end);
        pieces.push(piece.trim_end().to_string());
        rest = after.trim_start();
    }
    if !rest.is_empty() || pieces.is_empty() {
        pieces.push(rest.to_string());
    }
    pieces
}

/// Where the first piece ends: before its last blank, or where the room ends,
/// and behind one letter at least.
fn end_of_piece(text: &str, room: usize) -> usize {
    let mut taken = 0;
    let mut end = 0;
    for (place, letter) in text.char_indices() {
        taken += letter.width().unwrap_or(0);
        if taken > room && place > 0 {
            break;
        }
        end = place + letter.len_utf8();
    }
    if text[end..].starts_with(' ') {
        return end;
    }
    let blank = text[..end].rfind(' ');
    blank.filter(|blank| *blank > 0).unwrap_or(end)
}

#[cfg(test)]
mod tests {
    use super::*;

    #[test]
    fn no_name_breaks_out() {
        assert_eq!(
            escaped("<R&D> \"x\" 'y'\u{7}\u{202E}"),
            "&lt;R&amp;D&gt; &quot;x&quot; 'y'\u{FFFD}\u{FFFD}"
        );
        assert_eq!(plain("a\nb\t\u{9B}c"), "a\u{FFFD}b\u{FFFD}\u{FFFD}c");
    }

    #[test]
    fn wide_letters_take_two_columns() {
        assert_eq!(width("研究"), 4);
        assert_eq!(width("e\u{301}t\u{E9}"), 3);
    }

    #[test]
    fn pieces_fit_and_lose_nothing() {
        assert_eq!(pieces("vault", 5), ["vault"]);
        assert_eq!(pieces("ward of the heart", 8), ["ward of", "the", "heart"]);
        assert_eq!(pieces("cardiology", 4), ["card", "iolo", "gy"]);
        assert_eq!(pieces("研究開発", 5), ["研究", "開発"]);
        assert_eq!(pieces("研究", 1), ["研", "究"]);
        assert_eq!(pieces("", 4), [""]);
    }
}
