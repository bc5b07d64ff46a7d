//! Answers that the paper gives.

use paper_reference::{Reference, call, call_write, write};
use sir_image::pages::to_bytes;
use sir_image::{Code, Control, Image, Span, samples};
use sir_questions::Question;

const END: u32 = u32::MAX;

fn question(text: &str) -> Question {
    text.parse().expect("a question")
}

fn answer(image: &Image, text: &str) -> Vec<u32> {
    Reference::new(&image.pages()).expect("an accepted image").answer(question(text)).expect("a known id")
}

/// One block of one function.
fn block(image: &mut Image, control: Control) {
    let operations = image.operations_from(0);
    image.block(&[], &[], operations, control);
    image.function(0);
}

fn allocate(image: &mut Image, base: u32) {
    image.operation_with(Code::StaticAllocZeroed, &[], &[base], [32, base]);
}

#[test]
fn report() {
    let image = samples::report();
    let ask = |text| answer(&image, text);
    assert_eq!(ask("order"), [0, 2, 0, 1]);
    assert_eq!(ask("rounds"), [2]);
    assert_eq!((ask("entry_set:0"), ask("exit_set:0")), (vec![], vec![1]));
    assert_eq!((ask("entry_set:1"), ask("exit_set:1")), (vec![2], vec![]));
    assert_eq!(ask("predecessors:1"), [0]);
    assert_eq!(ask("uses:1"), [0, 0, 2, 0, 2, 0]);
    assert_eq!(ask("intervals:0"), [0, 1, 3]);
    assert_eq!(ask("intervals:1"), [0, 2, END]);
    assert_eq!(ask("intervals:2"), [1, 0, 4]);
    assert_eq!(ask("allocation:0"), [0, 1, 1, 0, 32, 0, 0, 0, 2, 0, 2, END, 1, 0, 4]);
    assert_eq!(ask("owner:2"), [1]);
    assert_eq!(ask("owner:3"), [0]);
}

/// Each answer after its length in words.
#[test]
fn all_ids() {
    let image = samples::report();
    let ask = |text| answer(&image, text);
    assert_eq!(ask("all_predecessors"), [0, 1, 0]);
    assert_eq!((ask("all_entry_sets"), ask("all_exit_sets")), (vec![0, 1, 2], vec![1, 1, 0]));
    assert_eq!(ask("all_uses"), [3, 0, 0, 2, 6, 0, 0, 2, 0, 2, 0, 3, 1, 0, 3, 0]);
    assert_eq!(ask("all_intervals"), [3, 0, 1, 3, 3, 0, 2, END, 3, 1, 0, 4, 0]);
    assert_eq!(ask("all_owners"), [1, 0, 1, 1, 1, 1, 1, 0]);
    assert_eq!(ask("all_allocations"), [15, 0, 1, 1, 0, 32, 0, 0, 0, 2, 0, 2, END, 1, 0, 4]);
    let room = |room| Reference::new(&image.pages()).unwrap().bytes_within(question("all_predecessors"), room);
    assert_eq!((room(11), room(12).map(|bytes| bytes.len())), (Err(14), Ok(12)));
}

#[test]
fn functions_that_call_each_other() {
    assert_eq!(answer(&samples::mutual_calls(), "order"), [0, 1, 0, 1, 1, 1]);
}

#[test]
fn stores_of_a_pointer() {
    for (inputs, mark) in [([1, 1], 1), ([1, 0], 0), ([0, 1], 1)] {
        let mut image = Image::new(2);
        allocate(&mut image, 1);
        image.operation(Code::MemoryStore, &inputs, &[]);
        block(&mut image, Control::LastOpTerminates);
        assert_eq!(answer(&image, "allocation:0")[6], mark);
    }
}

/// Offset and size of a log let no pointer escape, its topics do.
#[test]
fn pointers_in_logs() {
    let image = samples::logs();
    let records: Vec<Vec<u32>> = (0..20).map(|number| answer(&image, &format!("allocation:{number}"))).collect();
    assert_eq!(records.iter().map(|record| record[6]).collect::<Vec<_>>(), samples::LOG_MARKS);
    assert!(records.iter().all(|record| record[6] + record[8] == 1), "one interval, or the mark: {records:?}");
    assert_eq!(answer(&samples::topic(), "allocation:0"), [0, 0, 0, 0, 32, 0, 1, 1, 0]);
}

#[test]
fn a_pointer_as_condition() {
    let mut image = Image::new(1);
    allocate(&mut image, 0);
    block(&mut image, Control::Branches { condition: 0, non_zero: 1, zero: 1 });
    image.block(&[], &[], Span::EMPTY, Control::LastOpTerminates);
    assert_eq!(answer(&image, "allocation:0")[6..], [0, 0, 1, 0, 1, END]);
}

#[test]
fn an_unused_allocation() {
    let mut image = Image::new(1);
    allocate(&mut image, 0);
    block(&mut image, Control::LastOpTerminates);
    assert_eq!(answer(&image, "allocation:0")[6..], [0, 0, 0]);
}

#[test]
fn a_sum_of_pointers() {
    let image = samples::sum_of_pointers();
    assert_eq!(answer(&image, "allocation:0")[6..], [1, 4, 0]);
    assert_eq!(answer(&image, "allocation:1")[6..], [1, 4, 0]);
    assert_eq!(answer(&image, "owner:3"), [2]);
}

/// Each allocation takes the other's base, and neither goes on from it.
#[test]
fn owners_that_change_places() {
    let image = samples::exchanged_bases();
    assert_eq!((answer(&image, "owner:0"), answer(&image, "owner:1")), (vec![2], vec![1]));
}

/// `v = v + 1` in a loop: v stays live at entry.
#[test]
fn outputs_are_removed_before_inputs_are_added() {
    let mut image = Image::new(2);
    image.operation(Code::Add, &[0, 1], &[0]);
    block(&mut image, Control::ContinuesTo(0));
    assert_eq!(answer(&image, "entry_set:0"), [0, 1]);
    assert_eq!(answer(&image, "rounds"), [2]);
}

/// Both ends count: 1..3 and 3..5 share operation 2, at which they cross.
#[test]
fn touching_intervals() {
    let image = samples::touching();
    let ask = |text: &str| answer(&image, text);
    assert_eq!(ask("allocation:0")[6..], [0, 0, 1, 0, 1, 3]);
    assert_eq!(ask("allocation:1")[6..], [0, 0, 2, 0, 3, 5, 0, 6, 7]);
    let open: Vec<Vec<u32>> = (0..8).map(|operation| ask(&format!("open:0,{operation}"))).collect();
    assert_eq!(open, [vec![0], vec![0], vec![0, 1], vec![1], vec![1], vec![1], vec![1], vec![]]);
    assert_eq!((ask("crossing:0,1"), ask("crossing:1,0")), (vec![1, 1, 3], vec![1, 1, 3]));
    assert_eq!((ask("crossing:0,0"), ask("crossing:1,1")), (vec![1, 1, 1], vec![1, 1, 3]));
}

/// Intervals that meet at a block's start and end alone have no operation in common, not even one with itself.
#[test]
fn intervals_that_meet_at_bare_ends() {
    let image = samples::bare_ends();
    let ask = |text: &str| answer(&image, text);
    assert_eq!(ask("allocation:0")[6..], [0, 0, 1, 0, 0, END]);
    assert_eq!(ask("allocation:1")[6..], [0, 0, 2, 0, 0, END, 1, 0, 1]);
    assert_eq!((ask("crossing:0,1"), ask("crossing:1,0")), (vec![0, 0, 0], vec![0, 0, 0]));
    assert_eq!((ask("crossing:0,0"), ask("crossing:1,1")), (vec![0, 0, 0], vec![1, 2, 1]));
    assert_eq!((ask("open:1,0"), ask("open:1,1"), ask("open:2,4")), (vec![1], vec![], vec![]));
}

/// No interval lies in a block that is not visited, though what its operations read is open elsewhere.
#[test]
fn an_unvisited_block() {
    assert_eq!(answer(&samples::bare_ends(), "open:3,5"), []);
}

/// A marked allocation is in no list and crosses all, itself and one without intervals included.
#[test]
fn a_marked_allocation() {
    let mut image = Image::new(3);
    allocate(&mut image, 0);
    allocate(&mut image, 1);
    allocate(&mut image, 2);
    image.operation(Code::MemoryStore, &[1, 0], &[]);
    block(&mut image, Control::LastOpTerminates);
    let ask = |text: &str| answer(&image, text);
    let marks = [0, 1, 2].map(|number| ask(&format!("allocation:{number}"))[6]);
    assert_eq!(marks, [1, 0, 0]);
    assert_eq!((ask("open:0,0"), ask("open:0,1"), ask("open:0,3")), (vec![], vec![1], vec![1]));
    for pair in ["0,0", "0,1", "1,0", "0,2", "2,0"] {
        assert_eq!(ask(&format!("crossing:{pair}")), [1, 0, 0], "{pair}");
    }
    assert_eq!(
        (ask("crossing:1,1"), ask("crossing:1,2"), ask("crossing:2,2")),
        (vec![1, 1, 2], vec![0; 3], vec![0; 3])
    );
}

/// 13, then 15, then 14. The interval of block 0 that ends with the block has the numbers of operations 3 and 4 in it.
#[test]
fn refusals_in_turn() {
    let image = samples::report().pages();
    let number = |text: &str, room| call(&image, question(text), &mut vec![7; room]).0;
    assert_eq!((number("open:0,1", 4), number("open:0,1", 3), number("open:0,0", 0)), (0, 14, 0));
    for (text, refusal) in [("open:2,0", 13), ("open:0,5", 13), ("open:2,5", 13), ("open:0,3", 15), ("open:1,2", 15)] {
        assert_eq!([0, 3, 20].map(|room| number(text, room)), [refusal; 3], "{text}");
    }
    assert_eq!((number("crossing:0,0", 12), number("crossing:0,0", 11)), (0, 14));
    assert_eq!((number("crossing:1,0", 0), number("crossing:0,1", 20)), (13, 13));
}

#[test]
fn calls() {
    let image = samples::report().pages();
    let mut result = [7; 20];
    assert_eq!(call(&image, question("order"), &mut result), (0, 16));
    assert_eq!(result, [0, 0, 0, 0, 2, 0, 0, 0, 0, 0, 0, 0, 1, 0, 0, 0, 7, 7, 7, 7]);
    let mut result = [7; 15];
    assert_eq!(call(&image, question("order"), &mut result), (14, 0));
    assert_eq!(call(&image, question("uses:4"), &mut result), (13, 0));
    assert_eq!(call(&image, question("entry_set:2"), &mut result), (13, 0));
    assert_eq!(call(&image, question("allocation:1"), &mut result), (13, 0));
    assert_eq!(call(&image[..511], question("order"), &mut result), (1, 0));
    assert_eq!(result, [7; 15]);
}

/// The records of an image are its words, and what is written of them is the image.
#[test]
fn there_and_back() {
    for image in [samples::report(), samples::touching(), samples::largest(), samples::deepest()] {
        let records = Reference::new(&image.pages()).unwrap().bytes(Question::Records).unwrap();
        assert_eq!(records, to_bytes(&image.words()));
        assert_eq!(write(&records), Ok(image.pages()));
    }
}

/// One function and one block without operations, and so many operand words that lie in no range.
fn with_operands(count: usize) -> Vec<u32> {
    let mut image = Image::new(1);
    image.operands = vec![0; count];
    block(&mut image, Control::LastOpTerminates);
    image.words()
}

/// 126 words fill a page, and one more begins the next.
#[test]
fn as_few_pages_as_hold_the_words() {
    for (words, pages) in [(21, 1), (125, 1), (126, 1), (127, 2), (252, 2), (253, 3)] {
        let records = with_operands(words - 21);
        assert_eq!((records.len(), write(&to_bytes(&records)).map(|image| image.len() / 512)), (words, Ok(pages)));
    }
    let one_page = write(&to_bytes(&[&[1, 1, 1], [0; 18].as_slice()].concat())).unwrap();
    assert_eq!(one_page[..20], to_bytes(&[0, 1, 1, 1, 0]));
    assert!(one_page[20..508].iter().all(|&byte| byte == 0), "zeros past the records");
    assert_eq!(one_page[508..], to_bytes(&[251 + 249 + 247]));
}

/// 6 outright, then 4 and 5, then 6 in its turn, then 7 and on.
#[test]
fn refusals_of_lent_records() {
    let number = |records: &[u8]| call_write(records, &mut [0; 512]).0;
    let of = |words: &[u32]| number(&to_bytes(words));
    let mut nine = [1, 1, 1, 0, 0, 0, 0, 0, 0];
    assert_eq!([of(&[]), of(&nine[..8]), of(&nine)], [6; 3]);
    nine[1] = 0;
    assert_eq!([of(&nine[..8]), of(&nine)], [6, 5]);
    nine[0] = 2;
    assert_eq!([of(&nine[..8]), of(&nine), number(&[&to_bytes(&nine), [0].as_slice()].concat())], [6, 4, 6]);
    let records = with_operands(4);
    let altered = |at: usize, word: u32, more: &[u32]| {
        let mut altered = [&records, more].concat();
        altered[at] = word;
        of(&altered)
    };
    assert_eq!([altered(0, 2, &[0]), altered(1, 65, &[0]), altered(6, 513, &[])], [4, 5, 5]);
    assert_eq!([altered(16, 5, &[0]), altered(16, 5, &[]), altered(9, 1, &[])], [6, 7, 8]);
    assert_eq!([altered(4, 3, &[]), altered(4, 5, &[]), altered(4, 5, &[0])], [6, 6, 0]);
}

/// The reader pads with zeros, the writer is lent none: a zero too many is one word too many.
#[test]
fn padding_is_not_lent() {
    let image = samples::report();
    let mut words = image.words();
    words.resize(126, 0);
    assert_eq!((write(&to_bytes(&words)), write(&to_bytes(&image.words()))), (Err(6), Ok(image.pages())));
}

#[test]
fn calls_of_the_writer() {
    let records = to_bytes(&samples::report().words());
    let mut result = [7; 515];
    assert_eq!(call_write(&records, &mut result), (0, 512));
    assert_eq!((&result[..512], &result[512..]), (samples::report().pages().as_slice(), [7; 3].as_slice()));
    let mut result = [7; 511];
    assert_eq!(call_write(&records, &mut result), (14, 0));
    assert_eq!(call_write(&records[1..], &mut result), (6, 0));
    assert_eq!(result, [7; 511]);
    assert_eq!((call_write(&records, &mut []), call_write(&[], &mut [])), ((14, 0), (6, 0)));
}
