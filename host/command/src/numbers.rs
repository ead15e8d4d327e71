//! Numbers and bytes as people write them.

/// A number, decimal or with `0x`.
///
/// # Errors
///
/// Words, where it is none or has more than 32 bits.
pub fn number(word: &str) -> Result<u32, String> {
    let (digits, radix) = match word.strip_prefix("0x").or(word.strip_prefix("0X")) {
        Some(digits) => (digits, 16),
        None => (word, 10),
    };
    if digits.is_empty() || !digits.chars().all(|digit| digit.is_digit(radix)) {
        return Err(format!("'{word}' is not a number"));
    }
    u32::from_str_radix(digits, radix).map_err(|_| format!("{word} is over 4294967295"))
}

/// Bytes in hex, two digits each, with or without blanks between them.
///
/// # Errors
///
/// Words, where something else stands among them.
pub fn hex<'a>(words: impl IntoIterator<Item = &'a str>) -> Result<Vec<u8>, String> {
    let mut bytes = Vec::new();
    for word in words {
        if !word.len().is_multiple_of(2) || !word.bytes().all(|digit| digit.is_ascii_hexdigit()) {
            return Err(format!("'{word}' is not bytes in hex"));
        }
        let pairs = word.as_bytes().chunks_exact(2);
        bytes.extend(pairs.map(|pair| digit(pair[0]) << 4 | digit(pair[1])));
    }
    Ok(bytes)
}

fn digit(letter: u8) -> u8 {
    match letter {
        b'0'..=b'9' => letter - b'0',
        _ => (letter | 0x20) - b'a' + 10,
    }
}

/// Bytes as `11 22 FF`.
#[must_use]
pub fn spaced(bytes: &[u8]) -> String {
    let shown: Vec<String> = bytes.iter().map(|byte| format!("{byte:02X}")).collect();
    shown.join(" ")
}

/// A number as `1,234,567`.
#[must_use]
pub fn grouped(number: impl std::fmt::Display) -> String {
    let digits = number.to_string();
    let mut text = String::new();
    for (place, digit) in digits.chars().enumerate() {
        if place > 0 && (digits.len() - place).is_multiple_of(3) {
            text.push(',');
        }
        text.push(digit);
    }
    text
}

#[cfg(test)]
mod tests {
    use super::*;

    #[test]
    fn numbers_are_read_or_refused() {
        assert_eq!(number("0x1FE00"), Ok(0x1FE00));
        assert_eq!(number("4294967295"), Ok(u32::MAX));
        for bad in ["", "0x", "+1", "-1", "1_0", "0x100000000", "12k"] {
            assert!(number(bad).is_err(), "{bad}");
        }
    }

    #[test]
    fn bytes_are_read_or_refused() {
        assert_eq!(hex(["1122", "fF"]), Ok(vec![0x11, 0x22, 0xFF]));
        for bad in ["1", "0x11", "gg", "é1"] {
            assert!(hex([bad]).is_err(), "{bad}");
        }
    }

    #[test]
    fn thousands_are_grouped() {
        assert_eq!(grouped(0), "0");
        assert_eq!(grouped(999), "999");
        assert_eq!(grouped(1_234_567), "1,234,567");
    }
}
