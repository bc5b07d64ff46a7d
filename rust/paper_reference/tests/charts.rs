//! Charts written out by hand, and the rules that every chart keeps.

use paper_reference::{Reference, call, chart, chart_text};
use sir_image::{Code, Control, Image, Span, samples};
use sir_questions::Question;

/// The bytes of a sheet: 60 lines of 72 characters and a line feed.
const SHEET: usize = 60 * 73;

/// The chart of these lines of one series: operations as index, marks of the first allocations and the last column.
fn drawn(lines: &[&str]) -> String {
    let full = |line: &&str| match line.split_once('|') {
        Some((index, marks)) => {
            let (marks, call) = marks.split_once('|').expect("two bars");
            format!("{index:>5}|{marks:.<64}|{call:1}\n")
        }
        None => format!("{line:72}\n"),
    };
    let blank = || format!("{:72}\n", "");
    let drawn: String = lines.iter().map(full).collect();
    let filling = lines.len()..lines.len().next_multiple_of(60);
    drawn + &filling.map(|_| blank()).collect::<String>()
}

fn assert_chart(image: &Image, expected: &str) {
    let chart = chart(&image.pages()).expect("an accepted image");
    assert!(chart == expected, "given:\n{chart}\nexpected:\n{expected}");
}

/// The lines of a series that have something in them.
fn written(chart: &str) -> Vec<&str> {
    chart.lines().map(str::trim_end).filter(|line| !line.is_empty()).collect()
}

#[test]
fn the_papers_image() {
    let chart = chart(&samples::report().pages()).unwrap();
    let dots = ".".repeat(63);
    let lines = [
        format!("block 0{:65}", ""),
        format!("    0|.{dots}| "),
        format!("    1|#{dots}| "),
        format!("    2|#{dots}| "),
        format!("block 1{:65}", ""),
        format!("    3|#{dots}| "),
        format!("    4|.{dots}| "),
    ];
    let mut expected: String = lines.iter().map(|line| format!("{line}\n")).collect();
    (7..60).for_each(|_| expected += &format!("{:72}\n", ""));
    assert_eq!((chart.len(), chart.as_str()), (SHEET, expected.as_str()));
}

/// Blocks stand as in the order, and an operation of two ranges has a line in each; calls have their letter.
#[test]
fn blocks_calls_and_shared_operations() {
    let mut image = Image::new(3);
    image.operation(Code::MemoryLoad, &[0], &[1]);
    image.operation_with(Code::InternalCall, &[], &[2], [1, 0]);
    image.block(&[], &[], Span::new(0, 2), Control::LastOpTerminates);
    image.operation_with(Code::InternalCallNever, &[], &[], [1, 0]);
    image.block(&[], &[], Span::new(2, 3), Control::LastOpTerminates);
    image.operation_with(Code::StaticAllocZeroed, &[], &[0], [32, 0]);
    image.operation(Code::Stop, &[], &[]);
    image.block(&[], &[], Span::new(3, 5), Control::ContinuesTo(3));
    image.block(&[], &[], Span::new(1, 3), Control::ContinuesTo(0));
    image.block(&[], &[], Span::new(0, 5), Control::LastOpTerminates);
    image.function(2);
    image.function(1);
    let lines = ["block 2", "3|#|", "4|#|", "block 3", "1|#|c", "2|#|c", "block 0", "0|#|", "1||c", "block 1", "2||c"];
    assert_chart(&image, &drawn(&lines));
}

/// Both ends of an interval lie in it, and two of one allocation have a gap between them.
#[test]
fn touching_intervals() {
    let marks = ["#.", "#.", "##", ".#", ".#", ".#", ".#", ".."];
    let lines: Vec<String> = (0..).zip(marks).map(|(index, marks)| format!("{index}|{marks}|")).collect();
    let lines: Vec<&str> = ["block 0"].into_iter().chain(lines.iter().map(String::as_str)).collect();
    assert_chart(&samples::touching(), &drawn(&lines));
}

/// Between the start and the end of a block lie the numbers of its own operations, whatever they are; block 3 is not visited.
#[test]
fn whole_blocks() {
    let lines = ["block 0", "block 1", "0|.#|", "1||", "2||", "3||", "block 2", "4||"];
    assert_chart(&samples::bare_ends(), &drawn(&lines));
}

/// A marked allocation has a star in every operation line, also before it is made and in a block that never sees it.
#[test]
fn marked() {
    let mut image = samples::sum_of_pointers();
    image.blocks[0].control = Control::ContinuesTo(1);
    let stop = image.operation(Code::Stop, &[], &[]);
    image.block(&[], &[], image.operations_from(stop), Control::LastOpTerminates);
    assert_chart(&image, &drawn(&["block 0", "0|**|", "1|**|", "2|**|", "block 1", "3|**|"]));
}

/// No allocation: dots throughout. No operation: headings.
#[test]
fn none() {
    assert_chart(&samples::mutual_calls(), &drawn(&["block 0", "0||c", "block 1", "1||c"]));
    let mut image = Image::new(0);
    image.block(&[], &[], Span::EMPTY, Control::ContinuesTo(1));
    image.block(&[], &[], Span::EMPTY, Control::LastOpTerminates);
    image.function(0);
    assert_chart(&image, &drawn(&["block 0", "block 1"]));
}

/// One block that makes so many allocations, the pointers of the odd ones stored, and then so many operations that do nothing.
fn block_of(allocations: u32, others: u32) -> Image {
    let mut image = Image::new(allocations);
    for base in 0..allocations {
        image.operation_with(Code::StaticAllocZeroed, &[], &[base], [32, base]);
    }
    for _ in 0..others {
        image.operation(Code::Noop, &[], &[]);
    }
    for base in (1..allocations).step_by(2) {
        image.operation(Code::MemoryStore, &[base, base], &[]);
    }
    image.block(&[], &[], image.operations_from(0), Control::LastOpTerminates);
    image.function(0);
    image
}

/// A sheet that is just full is not filled, and one line more takes another sheet.
#[test]
fn sheets() {
    for (others, sheets) in [(0, 1), (58, 1), (59, 1), (60, 2), (118, 2), (119, 2), (120, 3)] {
        let chart = chart(&block_of(0, others).pages()).unwrap();
        assert_eq!(chart.len(), sheets * SHEET, "{others} operations");
        assert!(chart.lines().all(|line| line.len() == 72));
        assert_eq!(written(&chart).len(), 1 + others as usize);
    }
}

/// 64 allocations are a series, and the next begins another one with all lines again.
#[test]
fn series() {
    for (allocations, series) in [(1, 1), (63, 1), (64, 1), (65, 2), (128, 2), (129, 3), (512, 8)] {
        let image = block_of(allocations, 0);
        let chart = chart(&image.pages()).unwrap();
        let height = (1 + image.operations.len()).next_multiple_of(60);
        assert_eq!(chart.len(), 73 * height * series, "{allocations} allocations");
        for (number, sheets) in chart.as_bytes().chunks(73 * height).enumerate() {
            let of_series = (allocations - 64 * number as u32).min(64) as usize;
            let marks = [".*".repeat(32)[..of_series].to_string(), ".".repeat(64 - of_series)].concat();
            let first = String::from_utf8(sheets[73..146].to_vec()).unwrap();
            assert_eq!((&sheets[..7], first), (b"block 0".as_slice(), format!("    0|{marks}| \n")));
        }
    }
}

#[test]
fn indices() {
    let image = block_of(0, 1024);
    let chart = chart(&image.pages()).unwrap();
    let line = |index: usize| &chart[73 * (index + 1)..73 * (index + 1) + 6];
    let lines = [0, 9, 10, 99, 100, 999, 1000, 1023].map(line);
    assert_eq!(lines, ["    0|", "    9|", "   10|", "   99|", "  100|", "  999|", " 1000|", " 1023|"]);
}

/// The image's refusals, then 14; 13 never, since there is no id.
#[test]
fn calls() {
    let image = samples::report().pages();
    let given = |image: &[u8], room| call(image, Question::Chart, &mut vec![7; room]);
    assert_eq!([SHEET, SHEET + 5].map(|room| given(&image, room)), [(0, SHEET as u64); 2]);
    assert_eq!([SHEET - 1, 73, 1, 0].map(|room| given(&image, room)), [(14, 0); 4]);
    assert_eq!((given(&image[..511], 0), given(&[], SHEET)), ((1, 0), (1, 0)));
    let mut result = vec![7; SHEET + 3];
    call(&image, Question::Chart, &mut result);
    assert_eq!((&result[..8], &result[SHEET - 1..]), (b"block 0 ".as_slice(), [10, 7, 7, 7].as_slice()));
    assert_eq!(Reference::new(&image).unwrap().bytes(Question::Chart), Ok(chart(&image).unwrap().into_bytes()));
}

#[test]
fn what_the_program_prints() {
    let image = samples::report().pages();
    assert_eq!(chart_text(&image), chart(&image).unwrap());
    assert_eq!((chart_text(&image[1..]), chart(&image[1..])), ("refused 1\n".to_string(), Err(1)));
}
