//! Open allocations and crossings of the linked library, on small programs whose answers are stated by hand.
#![cfg(sir_linked)]

use sir_analyses::{AllocId, Answer, BlockId, Crossing, OpIdx, Question, Refusal, calls};
use sir_image::{Code, Control, Image, samples};

fn open(image: &[u8], block: u32, operation: u32) -> Result<Vec<u32>, Refusal> {
    let open = sir_analyses::open(image, BlockId(block), OpIdx(operation))?;
    Ok(open.iter().map(|allocation| allocation.0).collect())
}

fn crossing(image: &[u8], one: u32, other: u32) -> Result<Crossing, Refusal> {
    sir_analyses::crossing(image, AllocId(one), AllocId(other))
}

fn at(block: u32, operation: u32) -> Result<Crossing, Refusal> {
    Ok(Crossing::At(BlockId(block), OpIdx(operation)))
}

/// What is open from one operation of a block on, operation by operation.
fn open_from(image: &[u8], block: u32, first: u32, count: u32) -> Vec<Vec<u32>> {
    (first..first + count).map(|operation| open(image, block, operation).unwrap()).collect()
}

/// The paper's image: its one allocation lives from operation 1 of block 0 to operation 3, the first of block 1.
#[test]
fn the_papers_image() {
    let image = samples::report().pages();
    assert_eq!(open_from(&image, 0, 0, 3), [vec![], vec![0], vec![0]]);
    assert_eq!(open_from(&image, 1, 3, 2), [vec![0], vec![]]);
    assert_eq!(crossing(&image, 0, 0), at(0, 1));
}

/// 1..3 and 3..5 cross at operation 2.
#[test]
fn touching() {
    let image = samples::touching().pages();
    let expected = [vec![0], vec![0], vec![0, 1], vec![1], vec![1], vec![1], vec![1], vec![]];
    assert_eq!(open_from(&image, 0, 0, 8), expected);
    assert_eq!([crossing(&image, 0, 1), crossing(&image, 1, 0)], [at(0, 2), at(0, 2)]);
    assert_eq!([crossing(&image, 0, 0), crossing(&image, 1, 1)], [at(0, 0), at(0, 2)]);
}

/// Allocations that meet in a block without operations alone; the first of them has no other interval.
#[test]
fn bare_ends() {
    let image = samples::bare_ends().pages();
    assert_eq!([crossing(&image, 0, 1), crossing(&image, 1, 0)], [Ok(Crossing::Never); 2]);
    assert_eq!([crossing(&image, 0, 0), crossing(&image, 1, 1)], [Ok(Crossing::Never), at(1, 0)]);
}

#[test]
fn an_unvisited_block() {
    let image = samples::bare_ends().pages();
    assert_eq!(open_from(&image, 3, 5, 2), [vec![], vec![]]);
    assert_eq!(open(&image, 1, 0), Ok(vec![1]));
}

/// Allocation 0 is marked, since its pointer is stored; 1 is stored through; 2 is never read.
#[test]
fn marked() {
    let mut image = Image::new(3);
    for base in 0..3 {
        image.operation_with(Code::StaticAllocZeroed, &[], &[base], [32, base]);
    }
    image.operation(Code::MemoryStore, &[1, 0], &[]);
    image.block(&[], &[], image.operations_from(0), Control::LastOpTerminates);
    image.function(0);
    let image = image.pages();
    assert_eq!(open_from(&image, 0, 0, 4), [vec![], vec![1], vec![1], vec![1]]);
    for (one, other) in [(0, 0), (0, 1), (1, 0), (0, 2), (2, 0)] {
        assert_eq!(crossing(&image, one, other), Ok(Crossing::Marked), "{one} {other}");
    }
    assert_eq!([crossing(&image, 1, 1), crossing(&image, 1, 2)], [at(0, 1), Ok(Crossing::Never)]);
    assert_eq!(crossing(&image, 2, 2), Ok(Crossing::Never));
}

/// The number, and that length and slice are those of a refusal.
fn refused(image: &[u8], question: Question, room: usize) -> Refusal {
    let mut result = vec![7; room];
    let answer = calls::ask(question, image, &mut result);
    assert_eq!((answer, result), (Answer { length: 0, ..answer }, vec![7; room]), "{question}");
    answer.length().expect_err("a refusal")
}

/// 13, then 15, then 14. Both allocations live from the start of block 0, which has no operation, to its end; the numbers of
/// all operations lie between the two.
#[test]
fn refusals_in_turn() {
    let image = &samples::bare_ends().pages();
    let open = |block, operation| Question::Open(BlockId(block), OpIdx(operation));
    for room in [0, 3, 4, 8, 100] {
        for operation in 0..7 {
            assert_eq!(refused(image, open(0, operation), room), Refusal::NOT_IN_BLOCK);
        }
        for unknown in [open(4, 0), open(0, 7), open(1, 7), open(4, 7), open(u32::MAX, 0), open(0, u32::MAX)] {
            assert_eq!(refused(image, unknown, room), Refusal::UNKNOWN_ID, "{unknown}");
        }
        for (one, other) in [(2, 0), (0, 2), (2, 2), (0, u32::MAX)] {
            let unknown = Question::Crossing(AllocId(one), AllocId(other));
            assert_eq!(refused(image, unknown, room), Refusal::UNKNOWN_ID, "{unknown}");
        }
    }
    assert_eq!(refused(image, open(1, 4), 100), Refusal::NOT_IN_BLOCK);
    assert_eq!(refused(image, open(1, 0), 3), Refusal::SHORT_RESULT);
    assert_eq!(refused(image, Question::Crossing(AllocId(0), AllocId(1)), 11), Refusal::SHORT_RESULT);
    assert_eq!(calls::ask(open(1, 1), image, &mut []), Answer { number: 0, length: 0 });
}
