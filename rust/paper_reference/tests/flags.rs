//! What marked an allocation, on small programs whose flags are stated by hand.

use paper_reference::Reference;
use sir_image::{Code, Control, Image, Span, samples};
use sir_questions::{AllocId, Question};

/// The flags of all allocations, each of which is marked just where it has some.
fn flags(image: &Image) -> Vec<u32> {
    let reference = Reference::new(&image.pages()).expect("an accepted image");
    for (number, &flags) in reference.flags().iter().enumerate() {
        let record = reference.answer(Question::Allocation(AllocId(number as u32))).expect("a known id");
        assert_eq!(record[6..8], [u32::from(flags != 0), flags]);
    }
    reference.flags().to_vec()
}

/// One block that makes the allocations of bases 0, 1, .., copies pointers, stores some locals and returns others.
fn program(bases: u32, copies: &[(u32, u32)], stored: &[u32], returned: &[u32]) -> Image {
    let mut image = Image::new(8);
    for base in 0..bases {
        image.operation_with(Code::StaticAllocZeroed, &[], &[base], [32, base]);
    }
    for &(from, to) in copies {
        image.operation(Code::SetCopy, &[from], &[to]);
    }
    for &local in stored {
        image.operation(Code::MemoryStore, &[7, local], &[]);
    }
    image.block(&[], returned, image.operations_from(0), Control::InternalReturn);
    image.function(0);
    image
}

#[test]
fn one_allocation() {
    for (stored, returned, expected) in [(&[][..], &[][..], 0), (&[1], &[], 1), (&[], &[1], 2), (&[1], &[1], 3)] {
        assert_eq!(flags(&program(1, &[(0, 1)], stored, returned)), [expected]);
    }
    assert_eq!(flags(&program(1, &[(0, 1)], &[0], &[1])), [3]);
}

#[test]
fn every_sum() {
    assert_eq!(flags(&samples::every_flag()), [0, 1, 2, 3, 4, 5, 6, 7]);
}

/// Both sides have the meeting, and no other flag where the local is not used so.
#[test]
fn a_meeting() {
    assert_eq!(flags(&samples::sum_of_pointers()), [4, 4]);
    assert_eq!(flags(&samples::exchanged_bases()), [4, 4]);
    assert_eq!(flags(&program(3, &[(0, 4), (2, 4)], &[], &[])), [4, 0, 4]);
}

/// Where no base is in between, the lower number is first.
#[test]
fn the_lower_number_is_first() {
    let copies = [(0, 4), (1, 4), (4, 5)];
    assert_eq!(flags(&program(2, &copies, &[5], &[])), [5, 4]);
    assert_eq!(flags(&program(2, &copies, &[], &[4])), [6, 4]);
    assert_eq!(flags(&program(2, &copies, &[4], &[1])), [5, 6]);
}

/// A path that comes to the base of a later allocation does not go on from there: that one is first behind it.
#[test]
fn through_a_later_base() {
    let image = samples::through_a_base();
    assert_eq!(flags(&image), [4, 5]);
    assert_eq!(Reference::new(&image.pages()).unwrap().flags_by_lowest_number(), [5, 4]);
    assert_eq!(flags(&program(2, &[(0, 1), (1, 4), (4, 5)], &[], &[5])), [4, 6]);
    assert_eq!(flags(&program(3, &[(0, 2), (2, 4), (1, 4)], &[4], &[])), [4, 5, 4]);
}

/// By another way that has no base it does go on.
#[test]
fn past_a_later_base() {
    assert_eq!(flags(&program(2, &[(0, 1), (1, 4), (0, 5), (5, 4)], &[4], &[])), [5, 4]);
}

/// Each base is first for its own, whoever else comes to it, before or after.
#[test]
fn a_base_is_its_own() {
    for copies in [[(0, 1)], [(1, 0)]] {
        assert_eq!(flags(&program(2, &copies, &[0], &[])), [5, 4]);
        assert_eq!(flags(&program(2, &copies, &[1], &[])), [4, 5]);
        assert_eq!(flags(&program(2, &copies, &[1], &[0])), [6, 5]);
    }
}

/// Over an edge as by an operation.
#[test]
fn over_an_edge() {
    let mut image = program(2, &[], &[], &[0, 1]);
    image.blocks[0].control = Control::ContinuesTo(1);
    image.operation(Code::SetCopy, &[1], &[4]);
    image.block(&[1, 5], &[4], image.operations_from(2), Control::InternalReturn);
    assert_eq!(flags(&image), [4, 6]);
}

/// What a block does that is not visited marks nothing, and makes nobody first.
#[test]
fn unvisited_blocks() {
    let mut image = program(2, &[(1, 4)], &[], &[]);
    image.operation(Code::SetCopy, &[0], &[4]);
    image.operation(Code::MemoryStore, &[7, 4], &[]);
    image.block(&[], &[0, 4], image.operations_from(3), Control::InternalReturn);
    assert_eq!(flags(&image), [0, 0]);
    image.function(1);
    image.main = Some(1);
    assert_eq!(flags(&image), [7, 4]);
}

/// The operation `Return` returns bytes, not a pointer.
#[test]
fn returned_bytes() {
    let mut image = Image::new(1);
    image.operation_with(Code::StaticAllocZeroed, &[], &[0], [32, 0]);
    image.operation(Code::Return, &[0, 0], &[]);
    image.block(&[], &[], Span::new(0, 2), Control::LastOpTerminates);
    image.function(0);
    assert_eq!(flags(&image), [0]);
}
