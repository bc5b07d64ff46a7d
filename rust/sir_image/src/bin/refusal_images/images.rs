//! The images of the tables, and what is done to them.

use sir_image::pages::{self, CHECK_AT, PAGE_BYTES};
use sir_image::{Code, Control, Count, Image, Span};
use sir_questions::Refusal;

/// Blocks of [`kinds`]: one of each control kind, and one that is not visited.
pub const SWITCH: usize = 0;
pub const CONTINUE: usize = 1;
pub const BRANCH: usize = 2;
pub const RETURN: usize = 3;
pub const TERMINATE: usize = 4;
pub const LOOSE: usize = 5;
/// Operations of [`kinds`]: a call, a stop, and one in no range.
pub const CALL: usize = 1;
pub const STOP: usize = 3;
pub const LOOSE_OPERATION: usize = 4;
/// Ranges of a block; those of an operation are the first two.
pub const INPUTS: usize = 0;
pub const OUTPUTS: usize = 1;
pub const OPERATIONS: usize = 2;

/// 2 functions, 6 blocks, 5 operations, 9 operand words, 2 targets and 5 locals, in 123 words.
pub fn kinds() -> Image {
    let mut image = Image::new(5);
    image.operation(Code::SetSmallConst, &[], &[0]);
    image.operation_with(Code::InternalCall, &[0], &[1], [1, 0]);
    image.operation_with(Code::StaticAllocZeroed, &[], &[2], [32, 0]);
    image.operation(Code::Stop, &[], &[]);
    image.operation(Code::Add, &[0, 1], &[3]);
    let switch = image.switch(0, &[CONTINUE as u32, BRANCH as u32], Some(TERMINATE as u32));
    image.block(&[], &[], Span::new(0, 1), switch);
    image.block(&[], &[], Span::new(1, 3), Control::ContinuesTo(BRANCH as u32));
    image.block(&[], &[], Span::EMPTY, Control::Branches { condition: 1, non_zero: TERMINATE as u32, zero: 0 });
    image.block(&[4], &[4], Span::EMPTY, Control::InternalReturn);
    image.block(&[], &[], Span::new(3, 4), Control::LastOpTerminates);
    image.block(&[], &[], Span::EMPTY, Control::LastOpTerminates);
    image.function(SWITCH as u32);
    image.function(RETURN as u32);
    image.main = Some(1);
    image
}

/// One function of one block that stops, and no locals: 28 words.
pub fn small() -> Image {
    let mut image = Image::new(0);
    image.operation(Code::Stop, &[], &[]);
    image.block(&[], &[], Span::new(0, 1), Control::LastOpTerminates);
    image.function(0);
    image
}

/// [`small`] with one local and so many operand words in no run that it has this many words.
pub fn of_words(words: usize) -> Image {
    let mut image = small();
    image.locals = 1;
    image.operands = vec![0; words - image.word_count()];
    image
}

/// [`small`] on two pages.
pub fn two_pages() -> Image {
    of_words(200)
}

/// One function of one block without operations, and 512 locals.
pub fn block_of(inputs: &[u32], outputs: &[u32], control: Control) -> Image {
    let mut image = Image::new(512);
    image.block(inputs, outputs, Span::EMPTY, control);
    image.function(0);
    image
}

/// One function of one block with one operation, and 16 locals.
pub fn operation_on(code: Code, inputs: &[u32], outputs: &[u32]) -> Image {
    let mut image = Image::new(16);
    image.operation(code, inputs, outputs);
    image.block(&[], &[], Span::new(0, 1), Control::LastOpTerminates);
    image.function(0);
    image
}

/// An operation on so many locals from v0 on, that defines so many from v8 on.
pub fn operation(code: Code, inputs: u32, outputs: u32) -> Vec<u8> {
    operation_on(code, &locals(0, inputs), &locals(8, outputs)).pages()
}

/// An operation with the right operand counts and these extras. The one function is number 0.
pub fn extras(code: Code, extras: [u32; 2]) -> Vec<u8> {
    let (inputs, outputs) = right_counts(code);
    edited(operation_on(code, &locals(0, inputs), &locals(8, outputs)), |i| i.operations[0].extras = extras)
}

/// Every code once, each with outputs of its own, and the calls with operands.
pub fn every_code() -> Image {
    let mut image = Image::new(8 + 93);
    for code in Code::ALL {
        let (inputs, outputs) = right_counts(code);
        let id = u32::from(code);
        let extras =
            if matches!(code, Code::StaticAllocZeroed | Code::StaticAllocAnyBytes) { [32, id] } else { [0, 0] };
        image.operation_with(code, &locals(0, inputs), &locals(8 + id, outputs), extras);
    }
    image.block(&[], &[], image.operations_from(0), Control::LastOpTerminates);
    image.function(0);
    image
}

/// A call of 120 inputs, of which the last 22 stand on page 1.
pub fn long_run() -> Image {
    let inputs: Vec<u32> = (0..120).map(|i| i % 16).collect();
    operation_on(Code::InternalCall, &inputs, &[])
}

/// Eleven blocks, each on to the next. The record of the last begins on page 0 and ends on page 1.
pub fn eleven_blocks() -> Image {
    let mut image = Image::new(0);
    for next in 1..11 {
        image.block(&[], &[], Span::EMPTY, Control::ContinuesTo(next));
    }
    image.block(&[], &[], Span::EMPTY, Control::LastOpTerminates);
    image.function(0);
    image
}

/// Two blocks that share an operation, which reads what it defines.
pub fn overlapping() -> Image {
    let mut image = operation_on(Code::SetCopy, &[3], &[3]);
    image.operations[0].outputs = image.operations[0].inputs;
    image.operation(Code::Stop, &[], &[]);
    image.block(&[], &[], Span::new(0, 2), Control::LastOpTerminates);
    image.blocks[0].control = Control::ContinuesTo(1);
    image
}

/// A block of so many outputs, on to one of so many inputs.
pub fn continues(outputs: u32, inputs: u32) -> Image {
    let mut image = block_of(&[], &locals(0, outputs), Control::ContinuesTo(1));
    add_target(&mut image, inputs);
    image
}

/// A block of so many outputs that branches to blocks of so many inputs, or to one block both ways.
pub fn branches(outputs: u32, non_zero: u32, zero: Option<u32>) -> Image {
    let mut image = block_of(&[], &locals(0, outputs), Control::LastOpTerminates);
    let non_zero = add_target(&mut image, non_zero);
    let zero = zero.map_or(non_zero, |inputs| add_target(&mut image, inputs));
    image.blocks[0].control = Control::Branches { condition: 0, non_zero, zero };
    image
}

/// A block of so many outputs that switches over blocks of so many inputs.
pub fn switches(outputs: u32, cases: &[u32], fallback: Option<u32>) -> Image {
    let mut image = block_of(&[], &locals(0, outputs), Control::LastOpTerminates);
    let targets: Vec<u32> = cases.iter().map(|&inputs| add_target(&mut image, inputs)).collect();
    let fallback = fallback.map(|inputs| add_target(&mut image, inputs));
    image.blocks[0].control = image.switch(0, &targets, fallback);
    image
}

/// Adds a block that ends, of so many inputs of its own.
fn add_target(image: &mut Image, inputs: u32) -> u32 {
    let first = 8 * image.blocks.len() as u32;
    image.block(&locals(first, inputs), &[], Span::EMPTY, Control::LastOpTerminates)
}

/// The image with its one function moved to a new block, so that no other is visited.
pub fn unvisited(image: Image) -> Vec<u8> {
    edited(image, |i| i.entries[0] = i.block(&[], &[], Span::EMPTY, Control::LastOpTerminates))
}

/// [`kinds`] with this switch.
pub fn switch_over(first: u32, count: u32) -> Vec<u8> {
    edited(kinds(), |i| i.blocks[SWITCH].control = Control::Switch { condition: 0, first, count, fallback: Some(4) })
}

/// [`kinds`] with another control kind of a block.
pub fn kind(block: usize, value: u32) -> Vec<u8> {
    set(kinds().pages(), kinds().block_at(block) + 6, value)
}

/// [`kinds`] with another field of a block's control.
pub fn field(block: usize, field: usize, value: u32) -> Vec<u8> {
    set(kinds().pages(), kinds().block_at(block) + 7 + field, value)
}

/// [`kinds`] with another range of a block.
pub fn block_range(block: usize, range: usize, start: u32, end: u32) -> Vec<u8> {
    let at = kinds().block_at(block) + 2 * range;
    set(set(kinds().pages(), at, start), at + 1, end)
}

/// [`kinds`] with another range of an operation.
pub fn operation_range(operation: usize, range: usize, start: u32, end: u32) -> Vec<u8> {
    let at = kinds().operation_at(operation) + 1 + 2 * range;
    set(set(kinds().pages(), at, start), at + 1, end)
}

/// [`small`] with one of its first nine words changed.
pub fn header(at: usize, value: u32) -> Vec<u8> {
    set(small().pages(), at, value)
}

/// An image that breaks this rule and every one after it in the sequence.
pub fn breaks_from(first: u32) -> Vec<u8> {
    let place = |rule: u32| Refusal::ALL.iter().position(|refusal| refusal.number() == rule);
    let breaks = |rule: u32| place(first) <= place(rule);
    let mut image = block_of(&[3, 3], &[3, 3], Control::ContinuesTo(0));
    if breaks(10) {
        image.blocks[0].outputs = Span::EMPTY;
    }
    if breaks(9) {
        image.operation(Code::Add, &[], &[]);
    }
    if breaks(8) {
        image.init = 1;
    }
    if breaks(7) {
        image.operation(93u32, &[], &[]);
    }
    if breaks(5) {
        image.locals = 513;
    }
    let mut pages = image.pages();
    if breaks(6) {
        pages = one_more(pages);
    }
    if breaks(4) {
        pages = set(pages, 0, 2);
    }
    if breaks(3) {
        pages = flip_check(pages, 0, 1);
    }
    if breaks(2) {
        pages = renumber(pages, 1, 2);
    }
    if breaks(1) {
        pages.pop();
    }
    pages
}

/// So many locals from this one on.
pub fn locals(first: u32, count: u32) -> Vec<u32> {
    (first..first + count).collect()
}

/// The operand counts of a code, and some where it takes any.
fn right_counts(code: Code) -> (u32, u32) {
    let number = |count| match count {
        Count::Exactly(number) => number,
        Count::Any => 1,
    };
    let (inputs, outputs) = code.operand_counts();
    (number(inputs), number(outputs))
}

/// The pages of the image after an edit.
pub fn edited(mut image: Image, edit: impl FnOnce(&mut Image)) -> Vec<u8> {
    edit(&mut image);
    image.pages()
}

/// The image with one more operation, in no range.
pub fn loose(mut image: Image, code: impl Into<u32>, inputs: &[u32], outputs: &[u32]) -> Image {
    image.operation(code, inputs, outputs);
    image
}

/// The image with one more block, without operations.
pub fn with_block(mut image: Image, inputs: &[u32], outputs: &[u32], control: Control) -> Image {
    image.block(inputs, outputs, Span::EMPTY, control);
    image
}

/// The pages with another payload word, and the check to match.
pub fn set(mut pages: Vec<u8>, at: usize, value: u32) -> Vec<u8> {
    pages::set_payload_word(&mut pages, at, value);
    pages
}

/// The pages with another word, and the old check.
pub fn raw(mut pages: Vec<u8>, page: usize, at: usize, value: u32) -> Vec<u8> {
    pages::set_word(&mut pages, page, at, value);
    pages
}

/// The pages with another page number, and the check to match.
pub fn renumber(mut pages: Vec<u8>, page: usize, number: u32) -> Vec<u8> {
    pages::set_number(&mut pages, page, number);
    pages
}

/// The pages with some bits of a check turned over.
pub fn flip_check(pages: Vec<u8>, page: usize, bits: u32) -> Vec<u8> {
    let check = pages::word(&pages, page, CHECK_AT);
    raw(pages, page, CHECK_AT, check ^ bits)
}

/// The pages and one more, well formed, of zeros.
pub fn one_more(mut pages: Vec<u8>) -> Vec<u8> {
    pages::push_page(&mut pages, &[]);
    pages
}

/// Two pages in the other order.
pub fn swapped(mut pages: Vec<u8>) -> Vec<u8> {
    pages.rotate_left(PAGE_BYTES);
    pages
}

/// The first bytes.
pub fn cut(mut pages: Vec<u8>, length: usize) -> Vec<u8> {
    pages.truncate(length);
    pages
}
