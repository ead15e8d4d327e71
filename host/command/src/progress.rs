//! A progress line, on a terminal only.

use indicatif::{ProgressBar, ProgressStyle};

/// Counts up to `all` on standard error, and is gone at the end.
#[must_use]
pub fn bar(all: usize, what: &str) -> ProgressBar {
    let style = ProgressStyle::with_template("{percent:>3}%  {pos} of {len} {msg}  {eta} to go");
    let style = style.unwrap_or_else(|_| ProgressStyle::default_bar());
    let bar = ProgressBar::new(all as u64).with_style(style);
    bar.set_message(what.to_string());
    bar
}
