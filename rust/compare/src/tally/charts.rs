//! What was drawn in charts.

use paper_reference::Reference;
use sir_questions::IdKind;
use std::fmt::{self, Display, Formatter};

/// What was drawn in charts.
#[derive(Clone, Copy, Debug, Default)]
pub struct Charts {
    /// Charts.
    pub charts: u64,
    /// Of these, those without an allocation.
    pub none: u64,
    /// Of these, those of more than one series.
    pub several: u64,
    /// Charts whose last allocation is the last one of a series.
    pub full_series: u64,
    /// Charts whose series just fill their sheets.
    pub full_sheets: u64,
    /// Charts whose series have one line on their last sheet.
    pub one_line: u64,
    /// Lines.
    pub lines: u64,
    /// Columns of open allocations, of marked ones and of others, and calls, in operation lines.
    pub marks: [u64; 4],
}

impl Charts {
    /// The chart of an image.
    pub(super) fn note(&mut self, paper: &Reference, chart: &[u8]) {
        let allocations = paper.count(IdKind::Allocation);
        self.charts += 1;
        self.none += u64::from(allocations == 0);
        self.several += u64::from(allocations > 64);
        self.full_series += u64::from(allocations > 0 && allocations.is_multiple_of(64));
        self.full_sheets += u64::from(paper.chart_lines().is_multiple_of(60));
        self.one_line += u64::from(paper.chart_lines() % 60 == 1);
        for line in chart.chunks(73) {
            self.lines += 1;
            // A heading and a blank line have no bar.
            if line[5] == b'|' {
                let count = |mark| line[6..70].iter().filter(|&&column| column == mark).count() as u64;
                let found = [count(b'#'), count(b'*'), count(b'.'), u64::from(line[71] == b'c')];
                self.marks.iter_mut().zip(found).for_each(|(sum, found)| *sum += found);
            }
        }
    }
}

impl Display for Charts {
    fn fmt(&self, f: &mut Formatter<'_>) -> fmt::Result {
        let Charts {
            charts,
            none,
            several,
            full_series,
            full_sheets,
            one_line,
            lines,
            marks: [open, marked, other, calls],
        } = self;
        write!(
            f,
            "charts: {charts} of {lines} lines, {none} of them without allocations, {several} of several series; the last series \
             of {full_series} is full, the last sheet of {full_sheets}, and that of {one_line} has one line; {open} columns are \
             open, {marked} marked, {other} neither, {calls} lines are calls"
        )
    }
}

#[cfg(test)]
mod tests {
    use super::*;
    use sir_image::{Code, Control, Image, samples};
    use sir_questions::Question;

    /// Charts of one series and of two, without allocations, of a sheet that is just full and of one line more.
    #[test]
    fn charts() {
        let noted = |image: &Image| {
            let paper = Reference::new(&image.pages()).unwrap();
            let mut charts = Charts::default();
            charts.note(&paper, &paper.bytes(Question::Chart).unwrap());
            charts
        };
        let paper = noted(&samples::report());
        assert_eq!([paper.charts, paper.none, paper.several, paper.lines], [1, 0, 0, 60]);
        assert_eq!(paper.marks, [3, 0, 5 * 64 - 3, 0]);
        let none = noted(&samples::mutual_calls());
        assert_eq!((none.none, none.marks), (1, [0, 0, 128, 2]));
        let two = noted(&samples::two_series());
        assert_eq!([two.charts, two.several, two.full_series, two.lines], [1, 1, 0, 360]);
        assert_eq!((two.marks[1], two.marks[3]), (11 * 124, 8));
        let of = |operations| {
            let mut image = Image::new(0);
            (0..operations).for_each(|_| _ = image.operation(Code::Noop, &[], &[]));
            image.block(&[], &[], image.operations_from(0), Control::LastOpTerminates);
            image.function(0);
            let charts = noted(&image);
            [charts.full_sheets, charts.one_line, charts.lines]
        };
        assert_eq!([of(0), of(58), of(59), of(60)], [[0, 1, 60], [0, 0, 60], [1, 0, 60], [0, 1, 120]]);
    }
}
