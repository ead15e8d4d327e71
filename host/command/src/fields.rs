//! Texts of `KEY = VALUE`: states and prices.

use crate::error::Error;
use crate::files;
use std::path::{Path, PathBuf};

/// A text that has each of its keys once.
#[derive(Debug)]
pub struct Fields {
    path: PathBuf,
    values: Vec<(&'static str, usize, String)>,
}

impl Fields {
    /// The fields of a file; `#` begins a comment.
    ///
    /// # Errors
    ///
    /// Where it cannot be read, or a key is missing, unknown or doubled.
    pub fn read(path: &Path, keys: &[&'static str]) -> Result<Fields, Error> {
        let text = files::text(path)?;
        let mut fields = Fields {
            path: path.to_path_buf(),
            values: Vec::new(),
        };
        for (line, content) in (1..).zip(text.lines()) {
            let content = content.split('#').next().unwrap_or_default().trim();
            if !content.is_empty() {
                let put = fields.put(keys, line, content);
                put.map_err(|words| Error::line(path, line, words))?;
            }
        }
        let there = |key: &str| fields.values.iter().any(|(known, ..)| *known == key);
        match keys.iter().find(|key| !there(key)) {
            Some(key) => Err(Error::file(path, format!("'{key}' is missing"))),
            None => Ok(fields),
        }
    }

    fn put(&mut self, keys: &[&'static str], line: usize, content: &str) -> Result<(), String> {
        let Some((key, value)) = content.split_once('=') else {
            return Err(format!("'{content}' is not KEY = VALUE"));
        };
        let key = key.trim();
        let Some(key) = keys.iter().copied().find(|&known| known == key) else {
            return Err(format!("'{key}' is none of {}", keys.join(", ")));
        };
        if let Some((_, before, _)) = self.values.iter().find(|(known, ..)| *known == key) {
            return Err(format!("'{key}' stands in line {before} already"));
        }
        self.values.push((key, line, value.trim().to_string()));
        Ok(())
    }

    /// The value of a key, as `meant` understands it.
    ///
    /// # Errors
    ///
    /// The words of `meant`, with the line.
    pub fn get<T>(&self, key: &str, meant: impl Fn(&str) -> Result<T, String>) -> Result<T, Error> {
        let found = self.values.iter().find(|(known, ..)| *known == key);
        let Some((_, line, value)) = found else {
            return Err(Error::file(&self.path, format!("'{key}' is missing")));
        };
        meant(value).map_err(|words| Error::line(&self.path, *line, words))
    }
}
