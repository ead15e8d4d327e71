//! Cells in columns for a terminal: names to the left, numbers to the right.

use super::letters::{pieces, plain, width};

/// A column's head, and what stands below it. A head may have two lines.
#[derive(Clone, Debug)]
pub enum Column {
    /// Names: to the left, and broken into several lines where they are long.
    Names(String),
    /// Numbers: to the right, and never broken.
    Numbers(String),
}

#[derive(Clone, Debug)]
enum Entry {
    Cells(Vec<String>),
    Rule,
    Below(String),
}

/// Columns, and the rows below them.
#[derive(Clone, Debug)]
pub struct Grid {
    columns: Vec<Column>,
    entries: Vec<Entry>,
}

/// Names are not made narrower than this.
const LEAST: usize = 10;
/// Blanks before what stands below a row.
const INDENT: &str = "      ";

impl Grid {
    /// With these columns.
    #[must_use]
    pub fn new(columns: Vec<Column>) -> Grid {
        let mut grid = Grid {
            columns,
            entries: Vec::new(),
        };
        grid.rule();
        grid
    }

    /// A row; control characters do not come through.
    pub fn row(&mut self, cells: Vec<String>) {
        let cells = cells.iter().map(|cell| plain(cell)).collect();
        self.entries.push(Entry::Cells(cells));
    }

    /// A line across.
    pub fn rule(&mut self) {
        self.entries.push(Entry::Rule);
    }

    /// Words below the last row.
    pub fn below(&mut self, words: &str) {
        self.entries.push(Entry::Below(plain(words)));
    }

    /// The text, in so many columns where it can.
    #[must_use]
    pub fn text(&self, room: usize) -> String {
        let (widths, gap) = self.fitted(room);
        let across = widths.iter().sum::<usize>() + gap * widths.len().saturating_sub(1);
        let mut text = self.heads(&widths, gap);
        for entry in &self.entries {
            match entry {
                Entry::Rule => text.push_str(&format!("{}\n", "-".repeat(across))),
                Entry::Cells(cells) => text.push_str(&self.cells(cells, &widths, gap)),
                Entry::Below(words) => text.push_str(&below(words, room.max(across))),
            }
        }
        text
    }

    /// The widths of the columns, and the blanks between them.
    fn fitted(&self, room: usize) -> (Vec<usize>, usize) {
        let mut widths: Vec<usize> = (0..self.columns.len()).map(|at| self.wish(at)).collect();
        let between = widths.len().saturating_sub(1);
        if widths.iter().sum::<usize>() + 2 * between <= room {
            return (widths, 2);
        }
        while widths.iter().sum::<usize>() + between > room {
            let names = self.columns.iter().zip(&mut widths);
            let names = names.filter(|(column, wide)| match column {
                Column::Names(head) => **wide > LEAST.max(head_width(head)),
                Column::Numbers(_) => false,
            });
            match names.map(|(_, wide)| wide).max() {
                Some(widest) => *widest -= 1,
                None => break,
            }
        }
        (widths, 1)
    }

    /// What the widest cell of a column takes.
    fn wish(&self, at: usize) -> usize {
        let cells = self.entries.iter().filter_map(|entry| match entry {
            Entry::Cells(cells) => cells.get(at).map(|cell| width(cell)),
            Entry::Rule | Entry::Below(_) => None,
        });
        cells.max().unwrap_or(0).max(head_width(self.head(at)))
    }

    fn head(&self, at: usize) -> &str {
        match &self.columns[at] {
            Column::Names(head) | Column::Numbers(head) => head,
        }
    }

    /// The heads, the last lines of all of them in one line.
    fn heads(&self, widths: &[usize], gap: usize) -> String {
        let heads = (0..self.columns.len()).map(|at| self.head(at).split('\n').collect());
        let heads: Vec<Vec<&str>> = heads.collect();
        let high = heads.iter().map(Vec::len).max().unwrap_or(0);
        let line = |line: usize| {
            let part = |head: &Vec<&str>| {
                let place = (line + head.len()).checked_sub(high);
                place.map_or("", |place| head[place]).to_string()
            };
            self.line(heads.iter().map(part), widths, gap)
        };
        (0..high).map(line).collect()
    }

    /// A row: as many lines as its longest name is broken into.
    fn cells(&self, cells: &[String], widths: &[usize], gap: usize) -> String {
        let broken = cells.iter().zip(widths);
        let broken: Vec<Vec<String>> = broken.map(|(cell, room)| pieces(cell, *room)).collect();
        let high = broken.iter().map(Vec::len).max().unwrap_or(0);
        let piece = |cell: &Vec<String>, line| cell.get(line).cloned().unwrap_or_default();
        let line = |line| self.line(broken.iter().map(|cell| piece(cell, line)), widths, gap);
        (0..high).map(line).collect()
    }

    fn line(&self, cells: impl Iterator<Item = String>, widths: &[usize], gap: usize) -> String {
        let mut text = String::new();
        for ((cell, column), room) in cells.zip(&self.columns).zip(widths) {
            let blanks = " ".repeat(room.saturating_sub(width(&cell)));
            let padded = match column {
                Column::Names(_) => cell + &blanks,
                Column::Numbers(_) => blanks + &cell,
            };
            text.push_str(&padded);
            text.push_str(&" ".repeat(gap));
        }
        format!("{}\n", text.trim_end())
    }
}

fn head_width(head: &str) -> usize {
    head.split('\n').map(width).max().unwrap_or(0)
}

fn below(words: &str, room: usize) -> String {
    let lines = pieces(words, room.saturating_sub(INDENT.len()));
    lines
        .iter()
        .map(|line| format!("{INDENT}{line}\n"))
        .collect()
}

#[cfg(test)]
mod tests {
    use super::*;

    fn grid() -> Grid {
        let mut grid = Grid::new(vec![
            Column::Names("who".to_string()),
            Column::Numbers("how\nmany".to_string()),
        ]);
        grid.row(vec!["a ward of the house".to_string(), "1".to_string()]);
        grid.row(vec!["研究\u{7}".to_string(), "1,000".to_string()]);
        grid.below("below");
        grid
    }

    #[test]
    fn columns_stand_below_each_other() {
        assert_eq!(
            grid().text(80),
            "                       how\n\
             who                   many\n\
             --------------------------\n\
             a ward of the house      1\n\
             研究\u{FFFD}                1,000\n      below\n"
        );
    }

    #[test]
    fn names_are_broken_where_there_is_no_room() {
        assert_eq!(
            grid().text(18),
            "               how\n\
             who           many\n\
             ------------------\n\
             a ward of        1\n\
             the house\n\
             研究\u{FFFD}        1,000\n      below\n"
        );
        assert_eq!(
            grid().text(0),
            grid().text(16),
            "no narrower than it can be"
        );
    }
}
