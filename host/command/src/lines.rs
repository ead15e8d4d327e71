//! Texts of steps and records: lines, words, comments.

use crate::error::Error;
use std::path::Path;

/// A line's number and its words.
pub type Line = (usize, Vec<String>);

/// The lines that say something, split into words. `#` begins a comment, a
/// last `\` joins the next line, and quotes keep a name with blanks together.
///
/// # Errors
///
/// Where a quote is left open.
pub fn lines(path: &Path, text: &str) -> Result<Vec<Line>, Error> {
    let mut lines: Vec<Line> = Vec::new();
    let mut open = false;
    for (number, content) in (1..).zip(text.lines()) {
        let mut words = split(content).map_err(|words| Error::line(path, number, words))?;
        let goes_on = words.last().is_some_and(|last| last == "\\");
        if goes_on {
            words.pop();
        }
        match lines.last_mut() {
            Some((_, before)) if open => before.append(&mut words),
            _ if words.is_empty() => {}
            _ => lines.push((number, words)),
        }
        open = goes_on && !lines.is_empty();
    }
    Ok(lines)
}

fn split(content: &str) -> Result<Vec<String>, String> {
    let mut words = Vec::new();
    let mut rest = content.trim_start();
    while !rest.is_empty() && !rest.starts_with('#') {
        let (word, after) = match rest.strip_prefix('"') {
            Some(quoted) => quoted.split_once('"').ok_or("a quote is left open")?,
            None => {
                let end = rest.find(|c: char| c.is_whitespace() || c == '#');
                rest.split_at(end.unwrap_or(rest.len()))
            }
        };
        words.push(word.to_string());
        rest = after.trim_start();
    }
    Ok(words)
}
