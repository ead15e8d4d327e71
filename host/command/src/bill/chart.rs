//! The bill as a picture: a row a department, its bar full for what the chip
//! carried out and hatched for what was sent and ignored, its figures beside it.
//! The largest come first; of more than sixty, the smaller ones share a row.

use super::figures::Bill;
use super::hatch::Area;
use super::layout::{LEFT, Layout, MARGIN, NAME, TOP, cells, column_heads};
use super::letters::{escaped, plain};
use super::notes;
use super::pixels::{fitted, pixels};
use super::prices::Prices;
use super::series::{SERIES, Series, counts};
use super::sums::{Fault, Line, Sums, sums};
use crate::numbers::grouped;
use std::fmt::Write;

/// Departments with a row of their own.
pub const ROWS: usize = 60;
/// Pixels below which a part of a bar is narrow.
const NARROW: f64 = 2.0;

/// The picture, as a file of its own.
///
/// # Errors
///
/// Where the bill cannot be added up.
pub fn render(bill: &Bill) -> Result<String, Fault> {
    let sums = sums(bill)?;
    let declaration = "<?xml version=\"1.0\" encoding=\"UTF-8\"?>\n";
    Ok(format!("{declaration}{}", picture(bill, &sums)))
}

/// The picture, as a part of a page.
#[must_use]
pub fn picture(bill: &Bill, sums: &Sums) -> String {
    let (lines, rest) = sums.largest(ROWS);
    let layout = Layout::new(&bill.prices, &lines, sums);
    let mut text = head(bill, &layout);
    legend(&mut text);
    axis(&mut text, &layout, TOP + layout.high * lines.len() as f64);
    heads(&mut text, &layout, &bill.prices);
    for (place, line) in lines.iter().enumerate() {
        let y = layout.row(place);
        bar(&mut text, &layout, line, y);
        row(&mut text, &layout, line, y, None);
    }
    if let Some(rest) = &rest {
        let words = departments(sums.lines.len() - lines.len(), "smaller ");
        row(
            &mut text,
            &layout,
            rest,
            layout.row(lines.len()),
            Some(&words),
        );
    }
    let refused = match sums.total.refused {
        0 => String::new(),
        1 => "; 1 play refused".to_string(),
        more => format!("; {} plays refused", grouped(more)),
    };
    let words = departments(sums.lines.len(), "") + &refused;
    let y = layout.row(layout.rows - 1);
    row(&mut text, &layout, &sums.total, y, Some(&words));
    text + "</svg>\n"
}

fn departments(count: usize, which: &str) -> String {
    match count {
        1 => format!("1 {which}department"),
        more => format!("{} {which}departments together", grouped(more)),
    }
}

fn head(bill: &Bill, layout: &Layout) -> String {
    let Layout { width, height, .. } = layout;
    let title = escaped(&format!("{}: commands by department", notes::title(bill)));
    let state = escaped(&notes::state(bill));
    format!(
        "<svg xmlns=\"http://www.w3.org/2000/svg\" width=\"{width}\" height=\"{height}\" \
         viewBox=\"0 0 {width} {height}\" font-family=\"sans-serif\" font-size=\"12\" role=\"img\">\n\
         <title>{title}</title>\n\
         <path class=\"paper\" fill=\"#ffffff\" d=\"M0 0H{width}V{height}H0z\"/>\n\
         <text x=\"16\" y=\"30\" font-size=\"20\" font-weight=\"bold\">{title}</text>\n\
         <text x=\"16\" y=\"50\" fill=\"#333333\">The largest first. The month is \
         {state}.</text>\n"
    )
}

/// What the parts of a bar are: full ones in one line, hatched ones below.
fn legend(text: &mut String) {
    for (hatched, words, y) in [
        (false, "carried out by the chip:", 62.0),
        (true, "sent to the chip, and ignored:", 83.0),
    ] {
        let _ = writeln!(text, "<text x=\"16\" y=\"{}\">{words}</text>", y + 11.0);
        let mut area = Area {
            x: LEFT,
            y,
            wide: 22.0,
            high: 14.0,
        };
        let chosen = |series: &&Series| series.hatch.is_some() == hatched;
        for series in SERIES.iter().filter(chosen) {
            let words = series.words.trim_end_matches(" ignored");
            let (x, base) = (area.x + 28.0, y + 11.0);
            let key = part(series, area, "class=\"key\"", words);
            let _ = writeln!(text, "{key}<text x=\"{x:.1}\" y=\"{base}\">{words}</text>");
            area.x = x + 28.0 + pixels(words);
        }
    }
}

/// A part of a bar, or its key in the legend. The narrowest parts have no room
/// for a hatch, and a whole outline would make them wider than they are.
fn part(series: &Series, area: Area, attributes: &str, title: &str) -> String {
    let Area { x, y, wide, high } = area;
    let (fill, narrow) = (series.fill(), wide < NARROW);
    let (outline, hatch) = match (narrow, series.hatch) {
        (false, _) => (0.75, series.hatched(area)),
        (true, Some(_)) => (0.3, String::new()),
        (true, None) => (0.0, String::new()),
    };
    format!(
        "<rect {attributes} x=\"{x:.3}\" y=\"{y:.1}\" width=\"{wide:.3}\" height=\"{high:.1}\" \
         fill=\"{fill}\" stroke=\"#222222\" stroke-width=\"{outline}\">\
         <title>{title}</title></rect>{hatch}"
    )
}

/// The lines across, with their numbers above.
fn axis(text: &mut String, layout: &Layout, floor: f64) {
    let _ = writeln!(
        text,
        "<text class=\"axis\" x=\"{LEFT}\" y=\"{}\" fill=\"#333333\">commands</text>",
        TOP - 28.0
    );
    for count in (0..=layout.most / layout.step).map(|line| line * layout.step) {
        let x = LEFT + layout.long(count);
        let _ = writeln!(
            text,
            "<path class=\"line\" stroke=\"#c8c8c8\" d=\"M{x:.2} {}V{floor}\"/>\
             <text x=\"{x:.2}\" y=\"{}\" text-anchor=\"middle\">{}</text>",
            TOP - 6.0,
            TOP - 11.0,
            grouped(count)
        );
    }
}

fn heads(text: &mut String, layout: &Layout, prices: &Prices) {
    for (heads, edge) in column_heads(prices).iter().zip(layout.edges) {
        let heads = heads.iter().zip([TOP - 25.0, TOP - 11.0]);
        for (head, y) in heads.filter(|(head, _)| !head.is_empty()) {
            let head = escaped(head);
            let _ = writeln!(
                text,
                "<text x=\"{edge:.1}\" y=\"{y}\" text-anchor=\"end\" fill=\"#333333\">{head}</text>"
            );
        }
    }
}

/// The parts of a department's bar, one behind the other.
fn bar(text: &mut String, layout: &Layout, line: &Line, y: f64) {
    let name = escaped(line.name);
    let mut before = 0;
    let parts = SERIES.iter().zip(counts(&line.figures));
    for (series, count) in parts.filter(|(_, count)| *count > 0) {
        let area = Area {
            x: LEFT + layout.long(before),
            y: y + 2.5,
            wide: layout.long(count.into()),
            high: layout.high - 5.0,
        };
        before += u128::from(count);
        let (class, words) = (series.class, series.words);
        let attributes =
            format!("class=\"{class}\" data-department=\"{name}\" data-count=\"{count}\"");
        let title = format!("{name}: {words} {}", grouped(count));
        let _ = writeln!(text, "{}", part(series, area, &attributes, &title));
    }
}

/// The name of a line to the left, and its figures to the right. A sum of
/// several departments has words where they have their bars.
fn row(text: &mut String, layout: &Layout, line: &Line, y: f64, sum: Option<&str>) {
    let below = y + layout.high;
    let base = y + layout.high / 2.0 + 4.0;
    let name = escaped(&fitted(&plain(line.name), NAME));
    let weight = if sum.is_some() { "bold" } else { "normal" };
    let _ = write!(
        text,
        "<path class=\"below\" stroke=\"#dddddd\" d=\"M16 {below}H{}\"/>\
         <text class=\"name\" x=\"16\" y=\"{base}\" font-weight=\"{weight}\">{name}</text>",
        layout.width - MARGIN
    );
    if let Some(words) = sum {
        let x = LEFT + 6.0;
        let _ = write!(
            text,
            "<text x=\"{x}\" y=\"{base}\" fill=\"#333333\">{words}</text>"
        );
    }
    for (cell, edge) in cells(line, layout.prices).iter().zip(layout.edges) {
        let _ = write!(
            text,
            "<text class=\"figure\" x=\"{edge:.1}\" y=\"{base}\" text-anchor=\"end\" \
             font-weight=\"{weight}\">{cell}</text>"
        );
    }
    text.push('\n');
}
