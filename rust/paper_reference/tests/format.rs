//! `docs/FORMAT.md` says what the tables say: codes, limits, control kinds, refusals, questions and its examples.

use paper_reference::{Reference, call_write, chart, codes, report};
use sir_image::pages::to_bytes;
use sir_image::{
    Code, Control, Count, Image, MAX_BLOCKS, MAX_FUNCTIONS, MAX_LOCALS, MAX_OPERANDS, MAX_OPERATIONS, MAX_TARGETS,
};
use sir_questions::{IdKind, MarkCause, Question, Refusal, WRITE};
use std::collections::BTreeSet;
use std::{fs, path::Path};

fn page() -> String {
    fs::read_to_string(Path::new(env!("CARGO_MANIFEST_DIR")).join("../../docs/FORMAT.md")).unwrap()
}

/// The cells of the rows of the table whose head is this, without marks for code.
fn table(head: &str) -> Vec<Vec<String>> {
    let page = page();
    let (_, rest) = page.split_once(&format!("\n{head}\n")).unwrap_or_else(|| panic!("no table {head}"));
    let rows = rest.lines().skip(1).take_while(|line| line.starts_with('|'));
    let cell = |cell: &str| cell.trim().trim_matches('`').to_string();
    rows.map(|row| row.trim_matches('|').split('|').map(cell).collect()).collect()
}

/// What stands between the fences of this name.
fn fenced(name: &str) -> String {
    let page = page();
    let (_, rest) = page.split_once(&format!("\n```{name}\n")).unwrap_or_else(|| panic!("no ```{name}"));
    rest.split_once("```\n").expect("a closing fence").0.to_string()
}

fn numbers(text: &str) -> Vec<u32> {
    text.split_whitespace().map(|word| word.parse().expect("a number")).collect()
}

fn shown(count: Count) -> String {
    match count {
        Count::Exactly(count) => count.to_string(),
        Count::Any => "any".to_string(),
    }
}

/// More positions than any code but the calls has.
const POSITIONS: std::ops::Range<usize> = 0..12;

fn escaping(code: u32) -> String {
    let positions: Vec<String> =
        POSITIONS.filter(|&position| codes::escapes(code, position)).map(|position| position.to_string()).collect();
    match positions.len() {
        0 => "none".to_string(),
        all if all == POSITIONS.len() => "all".to_string(),
        _ => positions.join(", "),
    }
}

#[test]
fn every_code() {
    let rows = table("| code | name | inputs | outputs | extras | derives | escaping inputs |");
    assert_eq!(rows.len(), Code::ALL.len());
    for (row, code) in rows.iter().zip(Code::ALL) {
        let number = u32::from(code);
        let (inputs, outputs) = code.operand_counts();
        let extras = match number {
            _ if codes::is_call(number) => "callee, 0",
            _ if codes::is_static_allocation(number) => "size, static id",
            _ => "0, 0",
        };
        let derives = if codes::derives(number) { "yes" } else { "no" };
        let expected = [
            number.to_string(),
            format!("{code:?}"),
            shown(inputs),
            shown(outputs),
            extras.to_string(),
            derives.to_string(),
            escaping(number),
        ];
        assert_eq!(row, &expected);
    }
}

/// The two tables of operand counts, of the builder and of the reference, agree.
#[test]
fn operand_counts() {
    for code in Code::ALL {
        let (inputs, outputs) = code.operand_counts();
        let fits = |count: Count, operands: u32| count == Count::Any || count == Count::Exactly(operands);
        for given in 0..12 {
            for made in 0..4 {
                let expected = fits(inputs, given) && fits(outputs, made);
                assert_eq!(codes::counts_fit(code.into(), given, made), expected, "{code:?} {given} {made}");
            }
        }
    }
}

#[test]
fn limits() {
    let limits =
        table("| words | holds | limit |").into_iter().map(|row| row[2].clone()).filter(|limit| !limit.is_empty());
    let limits: Vec<usize> = limits.map(|limit| limit.parse().unwrap()).collect();
    let expected = [MAX_FUNCTIONS, MAX_BLOCKS, MAX_OPERATIONS, MAX_OPERANDS, MAX_TARGETS, MAX_LOCALS as usize];
    assert_eq!(limits, expected);
}

/// A field is 0 in the table just where the kind does not use it.
#[test]
fn control_kinds() {
    let rows = table("| kind | name | field 0 | field 1 | field 2 | field 3 | successors, in turn |");
    let used = [
        ("LastOpTerminates", Control::LastOpTerminates),
        ("InternalReturn", Control::InternalReturn),
        ("ContinuesTo", Control::ContinuesTo(7)),
        ("Branches", Control::Branches { condition: 7, non_zero: 7, zero: 7 }),
        ("Switch", Control::Switch { condition: 7, first: 7, count: 7, fallback: Some(7) }),
    ];
    assert_eq!(rows.len(), used.len());
    for (row, (name, control)) in rows.iter().zip(used) {
        let words = control.words();
        assert_eq!((&row[0], row[1].as_str()), (&words[0].to_string(), name));
        for (field, word) in row[2..6].iter().zip(&words[1..]) {
            assert_eq!(field == "0", *word == 0, "{name}: {field}");
        }
    }
}

#[test]
fn refusals() {
    let rows = table("| number | name | what is wrong | look first at |");
    let named: Vec<(String, String)> = rows.into_iter().map(|row| (row[0].clone(), row[1].clone())).collect();
    let expected =
        Refusal::ALL.iter().map(|refusal| (refusal.number().to_string(), refusal.name().unwrap().to_string()));
    assert_eq!(named, expected.collect::<Vec<_>>());
}

/// The writer's refusals: 6 outright, then those that go by the words of an image, then 14.
#[test]
fn refusals_of_the_writer() {
    let given: Vec<u32> = table("| number | of lent records |").iter().map(|row| row[0].parse().unwrap()).collect();
    let refusals = [Refusal::PAGE_COUNT].into_iter().chain(Refusal::of_words()).chain([Refusal::SHORT_RESULT]);
    assert_eq!(given, refusals.map(Refusal::number).collect::<Vec<_>>());
    assert!(page().contains(&format!("`sir_{}`", WRITE.name)));
}

/// Records that are shown get the numbers that stand before them.
#[test]
fn lent_records() {
    let mut numbers_given = BTreeSet::new();
    for line in fenced("lent").lines() {
        let (number, records) = line.split('#').next().unwrap().split_once(':').expect("a number and words");
        let records = to_bytes(&numbers(records));
        assert_eq!(call_write(&records, &mut [0; 512]).0, number.parse().unwrap(), "{line}");
        numbers_given.insert(number.to_string());
    }
    assert!(numbers_given.len() > 4);
}

/// What an id numbers, by the words for one.
fn sort(one: &str) -> IdKind {
    match one {
        "a block" => IdKind::Block,
        "an operation" => IdKind::Operation,
        "a local" => IdKind::Local,
        "an allocation" => IdKind::Allocation,
        _ => panic!("no id numbers {one}"),
    }
}

/// Each question has its row, is about the same ids, and one for all ids names the one for each.
#[test]
fn questions() {
    let rows = table("| question | about | words |");
    assert_eq!(rows.len(), Question::KINDS.len());
    for (row, kind) in rows.iter().zip(Question::KINDS) {
        assert_eq!(row[0], format!("sir_{}", kind.name));
        let about = row[1].split(", ").filter(|about| !about.is_empty()).map(sort);
        assert_eq!(about.collect::<Vec<_>>(), kind.ids, "{}", kind.name);
        assert_eq!(row[2].contains("text"), kind.is_text(), "{}", kind.name);
        if let Some(single) = kind.single() {
            assert!(row[2].ends_with(&format!("of `sir_{}", single.name)), "{}", kind.name);
        }
    }
}

/// Each cause of a mark has its row, by the flags.
#[test]
fn causes_of_marks() {
    let rows = table("| flag | cause | set where |");
    let given: Vec<(String, String)> = rows.into_iter().map(|row| (row[0].clone(), row[1].clone())).collect();
    let expected = MarkCause::ALL.iter().map(|cause| (cause.flag().to_string(), cause.text().to_string()));
    assert_eq!(given, expected.collect::<Vec<_>>());
}

#[test]
fn example_payload() {
    let words = fenced("payload").lines().flat_map(|line| numbers(line.split('#').next().unwrap())).collect::<Vec<_>>();
    let image = sir_image::samples::report();
    assert_eq!(words, image.words());
    let page_words = numbers_of(&image.pages());
    assert!(page().contains(&format!("{} words of padding and {} for the check", 126 - words.len(), page_words[127])));
}

fn numbers_of(bytes: &[u8]) -> Vec<u32> {
    bytes.as_chunks().0.iter().map(|&word| u32::from_le_bytes(word)).collect()
}

/// Holds the lines of a fence to the answers about an image, and gives the questions.
fn assert_answers(fence: &str, image: &Image) -> Vec<Question> {
    let reference = Reference::new(&image.pages()).unwrap();
    let line = |line: &str| {
        let (question, words) = line.split_once(' ').expect("a question and words");
        let question: Question = question.parse().unwrap();
        assert_eq!(reference.answer(question), Ok(numbers(words)), "{question}");
        question
    };
    fenced(fence).lines().map(line).collect()
}

#[test]
fn example_answers() {
    let questions = assert_answers("answers", &sir_image::samples::report());
    let names: BTreeSet<&str> = questions.iter().map(|question| question.kind().name).collect();
    assert!(names.len() > 8);
}

#[test]
fn example_flags() {
    assert_eq!(assert_answers("flags", &sir_image::samples::through_a_base()).len(), 2);
}

#[test]
fn example_report() {
    assert_eq!(fenced("report"), report(&sir_image::samples::report().pages()));
}

/// The front of each line, and how many lines fill the sheet.
#[test]
fn example_chart() {
    let chart = chart(&sir_image::samples::report().pages()).unwrap();
    let (shown, filling): (Vec<&str>, Vec<&str>) = chart.lines().partition(|line| !line.trim_end().is_empty());
    let cut: String = shown.iter().map(|line| line[..12].trim_end().to_string() + "\n").collect();
    assert_eq!(fenced("chart"), cut);
    assert!(page().contains(&format!("{} lines of spaces fill the sheet", filling.len())));
}

/// The columns of the lines of a chart, in turn and without a gap, and the marks.
#[test]
fn chart_lines() {
    let rows = table("| line | columns | what stands there |");
    let columns = |line: &str| -> Vec<u32> {
        let rows = rows.iter().filter(|row| row[0] == line);
        rows.flat_map(|row| numbers(&row[1].replace(" to ", " "))).collect()
    };
    assert_eq!((columns("heading"), columns("operation")), (vec![1, 72], vec![1, 5, 6, 7, 70, 71, 72]));
    let marks: BTreeSet<String> = table("| mark | where |").iter().map(|row| row[0].clone()).collect();
    let chart = chart(&sir_image::samples::logs().pages()).unwrap();
    let operations = chart.lines().filter(|line| line.contains('|'));
    let used: BTreeSet<String> = operations.flat_map(|line| line[6..70].chars()).map(String::from).collect();
    assert_eq!(marks, used);
}
