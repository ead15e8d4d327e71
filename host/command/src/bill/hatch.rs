//! Hatches, drawn line by line: a pattern would do, but a printed page with many
//! of them grows to megabytes.

use std::fmt::Write;

/// A way to hatch; in grey print they still differ.
#[derive(Clone, Copy, Debug, PartialEq, Eq)]
pub enum Hatch {
    /// Lines that rise to the right.
    Rising,
    /// Lines that fall to the right.
    Falling,
    /// Lines across.
    Level,
    /// Dots.
    Dots,
}

/// A rectangle, in pixels.
#[derive(Clone, Copy, Debug)]
pub struct Area {
    /// Its left edge.
    pub x: f64,
    /// Its top.
    pub y: f64,
    /// How wide it is.
    pub wide: f64,
    /// How high it is.
    pub high: f64,
}

/// Pixels from line to line.
const STEP: f64 = 5.0;

/// The lines over an area, as the data of a path; none leaves the area.
#[must_use]
pub fn lines(hatch: Hatch, area: Area) -> String {
    match hatch {
        Hatch::Rising => slanted(area, |along| area.x + along),
        Hatch::Falling => slanted(area, |along| area.x + area.wide - along),
        Hatch::Level => level(area, |y| format!("M{:.2} {y:.2}h{:.2}", area.x, area.wide)),
        Hatch::Dots => level(area, |y| dots(area, y)),
    }
}

/// Half a step, then step by step, up to an end.
fn steps(end: f64) -> impl Iterator<Item = f64> {
    let steps = (0..).map(|step| STEP * (f64::from(step) + 0.5));
    steps.take_while(move |step| *step < end)
}

/// Lines at half a right angle; `x` is where a distance from one side lies.
fn slanted(area: Area, x: impl Fn(f64) -> f64) -> String {
    let mut path = String::new();
    for along in steps(area.wide + area.high) {
        let (from, to) = ((along - area.wide).max(0.0), along.min(area.high));
        let (left, right) = (x(along - from), x(along - to));
        let (top, floor) = (area.y + from, area.y + to);
        let _ = write!(path, "M{left:.2} {top:.2}L{right:.2} {floor:.2}");
    }
    path
}

fn level(area: Area, line: impl Fn(f64) -> String) -> String {
    steps(area.high).map(|down| line(area.y + down)).collect()
}

fn dots(area: Area, y: f64) -> String {
    let dots = steps(area.wide - 0.1);
    dots.map(|along| format!("M{:.2} {y:.2}h0.1", area.x + along))
        .collect()
}

#[cfg(test)]
mod tests {
    use super::*;

    const AREA: Area = Area {
        x: 10.0,
        y: 20.0,
        wide: 6.0,
        high: 4.0,
    };

    #[test]
    fn lines_end_where_the_area_does() {
        let rising = "M12.50 20.00L10.00 22.50M16.00 21.50L13.50 24.00";
        assert_eq!(lines(Hatch::Rising, AREA), rising);
        let falling = "M13.50 20.00L16.00 22.50M10.00 21.50L12.50 24.00";
        assert_eq!(lines(Hatch::Falling, AREA), falling);
        assert_eq!(lines(Hatch::Level, AREA), "M10.00 22.50h6.00");
        assert_eq!(lines(Hatch::Dots, AREA), "M12.50 22.50h0.1");
    }

    #[test]
    fn a_narrow_area_has_no_endless_lines() {
        for wide in [0.0, 0.001] {
            for hatch in [Hatch::Rising, Hatch::Falling, Hatch::Level, Hatch::Dots] {
                assert!(lines(hatch, Area { wide, ..AREA }).len() < 100);
            }
        }
    }
}
