//! The parts of a bar: what was carried out in full tones, what was ignored
//! hatched. In grey print the tones differ in lightness, the hatches in kind.

use super::figures::Figures;
use super::hatch::{Area, Hatch, lines};

/// A part of every bar.
#[derive(Clone, Copy, Debug)]
pub struct Series {
    /// Its class.
    pub class: &'static str,
    /// What it counts.
    pub words: &'static str,
    /// How it is hatched, where it is what the chip ignored.
    pub hatch: Option<Hatch>,
    colour: &'static str,
}

/// The parts, in the order in which they follow each other.
pub const SERIES: [Series; 7] = [
    part("programs", "programs", "#1b3a6b", None),
    part("erases", "erases", "#d2792a", None),
    part("register-writes", "register writes", "#f4d98a", None),
    part(
        "programs-ignored",
        "programs ignored",
        "#1b3a6b",
        Some(Hatch::Rising),
    ),
    part(
        "erases-ignored",
        "erases ignored",
        "#b85f14",
        Some(Hatch::Falling),
    ),
    part(
        "register-writes-ignored",
        "register writes ignored",
        "#8a6d12",
        Some(Hatch::Level),
    ),
    part(
        "others-ignored",
        "others ignored",
        "#444444",
        Some(Hatch::Dots),
    ),
];

const fn part(
    class: &'static str,
    words: &'static str,
    colour: &'static str,
    hatch: Option<Hatch>,
) -> Series {
    Series {
        class,
        words,
        hatch,
        colour,
    }
}

impl Series {
    /// What fills it below its hatch.
    #[must_use]
    pub fn fill(&self) -> &'static str {
        match self.hatch {
            Some(_) => "#ffffff",
            None => self.colour,
        }
    }

    /// Its hatch over an area, where it has one.
    #[must_use]
    pub fn hatched(&self, area: Area) -> String {
        let Some(hatch) = self.hatch else {
            return String::new();
        };
        let (path, colour) = (lines(hatch, area), self.colour);
        let cap = match hatch {
            Hatch::Dots => "round",
            Hatch::Rising | Hatch::Falling | Hatch::Level => "butt",
        };
        format!(
            "<path class=\"hatch\" fill=\"none\" stroke=\"{colour}\" stroke-width=\"2\" \
             stroke-linecap=\"{cap}\" d=\"{path}\"/>"
        )
    }
}

/// The counts of a bar, in the order of the parts.
#[must_use]
pub fn counts(figures: &Figures) -> [u64; 7] {
    let ignored = &figures.ignored;
    [
        figures.programs,
        figures.erases,
        figures.register_writes,
        ignored.programs,
        ignored.erases,
        ignored.register_writes,
        ignored.others,
    ]
}
