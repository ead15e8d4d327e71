//! A month's bill: what is on it, what it comes to, and every way to show it.

pub mod cells;
pub mod chart;
pub mod csv;
pub mod figures;
pub mod grid;
pub mod hatch;
pub mod html;
pub mod json;
pub mod layout;
pub mod letters;
pub mod money;
pub mod notes;
pub mod pixels;
pub mod price_text;
pub mod prices;
pub mod series;
pub mod sums;
pub mod table;

pub use figures::{Bill, Department, Figures, Ignored, Play};
