//! How much room a text takes in a picture, and texts that fit theirs. A picture
//! does not know its font, so this is rather too much than too little.

use unicode_width::UnicodeWidthChar;

/// The size of the letters, in pixels.
pub const SIZE: f64 = 12.0;

/// Pixels that a text takes.
#[must_use]
pub fn pixels(text: &str) -> f64 {
    text.chars().map(letter).sum()
}

fn letter(letter: char) -> f64 {
    let ems = match letter {
        'i' | 'j' | 'l' | 't' | 'f' | 'I' | ' ' | '.' | ',' | ':' | ';' | '\'' | '|' | '!' => 0.4,
        'm' | 'w' | 'M' | 'W' | '@' | '%' | '…' | '\u{FFFD}' => 1.02,
        'A'..='Z' => 0.78,
        _ => match letter.width() {
            Some(0) | None => 0.0,
            Some(1) => 0.65,
            Some(_) => 1.05,
        },
    };
    ems * SIZE
}

/// The text, or its beginning and its end, so that it fits; names that differ
/// do so at one of the two as a rule.
#[must_use]
pub fn fitted(text: &str, room: f64) -> String {
    if pixels(text) <= room {
        return text.to_string();
    }
    let (mut head, mut tail) = (String::new(), Vec::new());
    let mut left = room - letter('…');
    let (mut from, mut until) = (text.chars(), text.chars().rev());
    loop {
        let front = head.chars().count() <= tail.len();
        let next = if front { from.next() } else { until.next() };
        let next = next.unwrap_or(' ');
        left -= letter(next);
        if left < 0.0 {
            let tail: String = tail.iter().rev().collect();
            return format!("{head}…{tail}");
        }
        match front {
            true => head.push(next),
            false => tail.push(next),
        }
    }
}

#[cfg(test)]
mod tests {
    use super::*;

    #[test]
    fn long_names_keep_both_ends() {
        assert_eq!(fitted("vault", 200.0), "vault");
        assert_eq!(fitted("ward of the heart, 17", 100.0), "ward o…rt, 17");
        assert_eq!(fitted("", 0.0), "");
    }

    #[test]
    fn what_is_fitted_fits() {
        for text in [
            "研究開発研究開発研究開発",
            "WWWWWWWWWWWWWWWWWWWW",
            "e\u{301}e\u{301}e\u{301}e\u{301}x",
        ] {
            for room in [20.0, 30.0, 55.5] {
                assert!(pixels(&fitted(text, room)) <= room, "{text}");
            }
        }
    }
}
