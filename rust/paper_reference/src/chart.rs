//! The chart for the review sheet (request R-6), line by line.

use crate::flow::Interval;
use crate::{Reference, codes, open};
use sir_questions::AllocId;
use std::fmt::Write;

/// Columns of a line; its line feed stands beyond them.
const COLUMNS: usize = 72;
/// Lines of a sheet.
const SHEET: usize = 60;
/// Allocations of a series of sheets.
const SERIES: usize = 64;

/// The chart of an image, or the number by which it is refused.
pub fn chart(image: &[u8]) -> Result<String, u32> {
    Reference::new(image)?.chart(usize::MAX)
}

/// What the program `chart` prints for an image.
pub fn chart_text(image: &[u8]) -> String {
    chart(image).unwrap_or_else(|number| format!("refused {number}\n"))
}

impl Reference {
    /// The chart, or 14 where it has more bytes than this.
    pub fn chart(&self, most: usize) -> Result<String, u32> {
        let height = self.chart_lines().next_multiple_of(SHEET);
        let series = self.allocations.len().div_ceil(SERIES).max(1);
        let length = series * height * (COLUMNS + 1);
        if length > most {
            return Err(14);
        }
        let mut text = String::with_capacity(length);
        (0..series).for_each(|number| self.sheets(SERIES * number, &mut text));
        assert_eq!(text.len(), length, "every line has its columns, and every sheet its lines");
        Ok(text)
    }

    /// How many lines of a series are no filling: a heading for each visited block, and one for each operation of its range.
    pub fn chart_lines(&self) -> usize {
        self.order.blocks().map(|block| 1 + self.records.blocks[block].operations.len()).sum()
    }

    /// The sheets of the series that begins with this allocation.
    fn sheets(&self, first: usize, text: &mut String) {
        let last = self.allocations.len().min(first + SERIES);
        for block in self.order.blocks() {
            line(text, &format!("block {block}"));
            let columns: Vec<_> = (first..last).map(|number| self.intervals_in(number, block)).collect();
            for operation in self.records.blocks[block].operations.clone() {
                let marks: String = (0..SERIES).map(|column| mark(columns.get(column), block, operation)).collect();
                let call = if codes::is_call(self.records.operations[operation].code) { 'c' } else { ' ' };
                line(text, &format!("{operation:>5}|{marks}|{call}"));
            }
        }
        for _ in self.chart_lines()..self.chart_lines().next_multiple_of(SHEET) {
            line(text, "");
        }
    }

    /// The merged intervals of an allocation in a block, or `None` where it is marked.
    fn intervals_in(&self, allocation: usize, block: usize) -> Option<Vec<Interval>> {
        let lifetime = self.lifetime(AllocId(allocation as u32))?;
        Some(lifetime.iter().copied().filter(|&(of, ..)| of as usize == block).collect())
    }
}

/// A line, filled with spaces.
fn line(text: &mut String, begin: &str) {
    writeln!(text, "{begin:COLUMNS$}").expect("text takes every line");
}

/// The mark of an allocation at an operation of a block; that of a column without one is a dot.
fn mark(allocation: Option<&Option<Vec<Interval>>>, block: usize, operation: usize) -> char {
    match allocation {
        Some(None) => '*',
        Some(intervals) if open::is_open(intervals.as_deref(), block, operation) => '#',
        _ => '.',
    }
}
