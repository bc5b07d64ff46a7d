//! The oracle on images whose answers the paper gives, and the tables that it rests on.
#![cfg(plank_sources)]

use plank_oracle::{Analyses, Program, SOURCES, Source};
use sir_image::{Code, Control, Image, Span, samples};
use sir_questions::{IdKind, Question};

const END: u32 = u32::MAX;

fn program(image: &Image) -> Program {
    Program::new(image).expect("the sources are present")
}

fn with<T>(image: &Image, ask: impl FnOnce(&Analyses) -> T) -> T {
    ask(&program(image).analyses(Source::Altered))
}

/// The paper's image for `report`.
#[test]
fn report() {
    with(&samples::report(), |plank| {
        assert!(!plank.shares_a_base());
        assert_eq!(plank.order(), [0, 2, 0, 1]);
        assert_eq!((plank.predecessors(0), plank.predecessors(1)), (vec![], vec![0]));
        assert_eq!((plank.entry_set(0), plank.exit_set(0)), (vec![], vec![1]));
        assert_eq!((plank.entry_set(1), plank.exit_set(1)), (vec![2], vec![]));
        assert_eq!(plank.uses(1), [0, 0, 2, 0, 2, 0]);
        assert_eq!(plank.intervals(0), [0, 1, 3]);
        assert_eq!(plank.intervals(1), [0, 2, END]);
        assert_eq!(plank.intervals(2), [1, 0, 4]);
        assert!(plank.intervals(3).is_empty());
        assert_eq!([IdKind::Block, IdKind::Local, IdKind::Allocation].map(|kind| plank.count(kind)), [2, 4, 1]);
        assert_eq!(plank.allocation(0), [0, 1, 1, 0, 32, 0, 0, 2, 0, 2, END, 1, 0, 4]);
        let owners: Vec<u32> = (0..4).flat_map(|local| plank.owner(local)).collect();
        assert_eq!(owners, [0, 1, 1, 0]);
        assert_eq!(plank.answer(Question::AllPredecessors), Some(vec![0, 1, 0]));
        assert_eq!(plank.answer(Question::AllOwners), Some(vec![1, 0, 1, 1, 1, 1, 1, 0]));
    });
}

/// Questions that Plank has no answer to.
#[test]
fn without_an_answer() {
    with(&samples::report(), |plank| {
        let asked = Question::KINDS.iter().map(|kind| kind.about_zeros());
        let without: Vec<String> =
            asked.filter(|&question| plank.answer(question).is_none()).map(|q| q.to_string()).collect();
        assert_eq!(without, ["rounds", "open:0,0", "crossing:0,0", "records", "chart"]);
    });
}

/// Codes number the names of `operation_causes_ptr_escape` in reading order, here and in the shim.
#[test]
fn codes_are_numbered_as_the_source_names_them() {
    let file = format!("{}/plankc/sir/crates/passes/src/analyses/allocation_liveness.rs", SOURCES.unwrap());
    let text = std::fs::read_to_string(file).unwrap();
    let (_, rest) = text.split_once("fn operation_causes_ptr_escape").unwrap();
    let (body, _) = rest.split_once("impl AllocationLiveness").unwrap();
    let named = body.split("Operation::").skip(1).map(|rest| rest.split_once('(').unwrap().0);
    let named: Vec<&str> = named.collect();
    assert_eq!(named, Code::ALL.map(|code| format!("{code:?}")));
    let shim: Vec<&str> = sir_data::operation::OperationKind::ALL.iter().map(|kind| kind.mnemonic()).collect();
    assert_eq!(named, shim);
}

/// The smallest image on which the altered source differs: a pointer that is a topic.
#[test]
fn a_topic() {
    let program = program(&samples::topic());
    let record = |source| program.analyses(source).allocation(0);
    assert_eq!(record(Source::Unaltered), [0, 0, 0, 0, 32, 0, 0, 1, 0, 1, 2]);
    assert_eq!(record(Source::Altered), [0, 0, 0, 0, 32, 0, 1, 0]);
}

/// With a pointer at every input position of every code the altered source differs at topics, and nowhere else.
#[test]
fn only_topics_are_altered() {
    let image = samples::input_positions(&Code::ALL);
    let program = program(&image);
    let [altered, unaltered] = [Source::Altered, Source::Unaltered].map(|source| program.analyses(source));
    let mut topics = 0;
    for number in 0..altered.count(IdKind::Allocation) {
        let record = altered.allocation(number);
        // The operation after the one that makes the allocation has its pointer, if any has.
        let next = &image.operations[record[1] as usize + 1];
        let inputs = &image.operands[next.inputs.start as usize..next.inputs.end as usize];
        let topic = (72..=75).contains(&next.code) && inputs[2..].contains(&record[2]);
        assert_eq!(record != unaltered.allocation(number), topic, "{next:?}");
        topics += u32::from(topic);
    }
    assert_eq!(topics, 10);
}

/// Two allocations with one base: the source asserts.
#[test]
fn a_shared_base() {
    let mut image = Image::new(1);
    image.operation_with(Code::StaticAllocZeroed, &[], &[0], [1, 0]);
    image.operation_with(Code::StaticAllocZeroed, &[], &[0], [1, 1]);
    let block = image.block(&[], &[], Span::new(0, 2), Control::InternalReturn);
    image.function(block);
    assert!(with(&image, |plank| plank.shares_a_base()));
    image.blocks[0].operations.end = 1;
    assert!(!with(&image, |plank| plank.shares_a_base()));
}

#[test]
fn functions_that_call_each_other() {
    assert_eq!(with(&samples::mutual_calls(), |plank| plank.order()), [0, 1, 0, 1, 1, 1]);
}

/// A branch with both targets equal gives that predecessor twice.
#[test]
fn equal_targets() {
    let mut image = Image::new(1);
    image.block(&[], &[], Span::EMPTY, Control::Branches { condition: 0, non_zero: 1, zero: 1 });
    image.block(&[], &[], Span::EMPTY, Control::LastOpTerminates);
    image.function(0);
    assert_eq!(with(&image, |plank| plank.predecessors(1)), [0, 0]);
}

/// Each allocation takes the other's base, and neither goes on from it.
#[test]
fn owners_that_change_places() {
    let image = samples::exchanged_bases();
    with(&image, |plank| assert_eq!((plank.owner(0), plank.owner(1)), (vec![2], vec![1])));
}

/// Both pointers are marked, and the later owns the sum.
#[test]
fn a_sum_of_pointers() {
    with(&samples::sum_of_pointers(), |plank| {
        assert_eq!(plank.allocation(0), [0, 0, 1, 0, 32, 0, 1, 0]);
        assert_eq!(plank.allocation(1), [0, 1, 2, 0, 32, 1, 1, 0]);
        assert_eq!((plank.owner(1), plank.owner(2), plank.owner(3)), (vec![1], vec![2], vec![2]));
    });
}
