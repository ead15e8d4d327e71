//! Names of boards and departments, as they may go into a book and onto a bill.

/// The most letters of a name.
const LONGEST: usize = 200;

/// A name without the blanks around it.
///
/// # Errors
///
/// Words, where it is empty, too long, has control characters, is `total`, or
/// would be a formula to a spreadsheet.
pub fn name(word: &str) -> Result<String, String> {
    let name = word.trim();
    let shown = crate::error::plain(name);
    if name.is_empty() {
        return Err("a name is empty".to_string());
    }
    if name.chars().count() > LONGEST {
        return Err(format!("a name is longer than {LONGEST} letters"));
    }
    if name.chars().any(unseen) {
        return Err(format!(
            "'{shown}': a control or direction character in a name"
        ));
    }
    if name.starts_with(['=', '+', '-', '@']) {
        return Err(format!(
            "'{shown}': a name that begins so is a formula to a spreadsheet"
        ));
    }
    match name.eq_ignore_ascii_case("total") {
        true => Err("'total' is the name of the bill's last line".to_string()),
        false => Ok(name.to_string()),
    }
}

/// Control characters, and those that turn or hide the text around them.
fn unseen(letter: char) -> bool {
    letter.is_control()
        || matches!(letter, '\u{200B}'..='\u{200F}' | '\u{2028}'..='\u{202E}' | '\u{2060}'..='\u{206F}' | '\u{FEFF}')
}

#[cfg(test)]
mod tests {
    use super::*;

    #[test]
    fn names_are_taken_or_refused() {
        for good in ["lab", "#1 lab", "R&D <x>", "実験室", "a=b", "totals"] {
            assert_eq!(name(good).as_deref(), Ok(good));
        }
        assert_eq!(name(" lab\t").as_deref(), Ok("lab"));
        let long = "x".repeat(201);
        for bad in [
            "",
            "  ",
            "a\nb",
            "a\u{1b}[31m",
            "=1+1",
            "+a",
            "-a",
            "@a",
            "Total",
            "a\u{202E}b",
            &long,
        ] {
            assert!(name(bad).is_err(), "{bad:?}");
        }
    }
}
