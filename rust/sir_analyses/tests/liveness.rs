//! Liveness and intervals of the linked library, on small programs whose answers are stated by hand.
#![cfg(sir_linked)]

use sir_analyses::{BlockId, End, Interval, LocalId, OpIdx, Refusal, Start, rounds};
use sir_image::{Code, Control, Image, MAX_LOCALS, Span};

const WHOLE: fn(u32) -> Interval = |block| Interval { block: BlockId(block), start: Start::Block, end: End::Block };

fn numbers(set: Result<Vec<LocalId>, Refusal>) -> Result<Vec<u32>, Refusal> {
    set.map(|locals| locals.iter().map(|local| local.0).collect())
}

fn entry_set(image: &[u8], block: u32) -> Result<Vec<u32>, Refusal> {
    numbers(sir_analyses::entry_set(image, BlockId(block)))
}

fn exit_set(image: &[u8], block: u32) -> Result<Vec<u32>, Refusal> {
    numbers(sir_analyses::exit_set(image, BlockId(block)))
}

fn intervals(image: &[u8], local: u32) -> Result<Vec<Interval>, Refusal> {
    sir_analyses::intervals(image, LocalId(local))
}

fn predecessors(image: &[u8], block: u32) -> Result<Vec<BlockId>, Refusal> {
    sir_analyses::predecessors(image, BlockId(block))
}

/// A block that copies a local, or does nothing.
fn block(image: &mut Image, inputs: &[u32], outputs: &[u32], copy: Option<(u32, u32)>, control: Control) {
    let first = image.operations.len() as u32;
    if let Some((from, to)) = copy {
        image.operation(Code::SetCopy, &[from], &[to]);
    }
    image.block(inputs, outputs, image.operations_from(first), control);
}

/// A block that ends the program.
fn stop(image: &mut Image) {
    let first = image.operation(Code::Stop, &[], &[]);
    image.block(&[], &[], image.operations_from(first), Control::LastOpTerminates);
}

/// Block 0 defines local 0 and goes on to block 1.
fn started(locals: u32) -> Image {
    let mut image = Image::new(locals);
    image.operation(Code::SetSmallConst, &[], &[0]);
    image.block(&[], &[], Span::new(0, 1), Control::ContinuesTo(1));
    image.function(0);
    image
}

#[test]
fn loop_of_one_block() {
    let mut image = started(2);
    block(&mut image, &[], &[], Some((0, 1)), Control::Branches { condition: 1, non_zero: 1, zero: 2 });
    stop(&mut image);
    let image = image.pages();
    assert_eq!((entry_set(&image, 0), exit_set(&image, 0)), (Ok(vec![]), Ok(vec![0])));
    assert_eq!((entry_set(&image, 1), exit_set(&image, 1)), (Ok(vec![0]), Ok(vec![0])));
    let defined = Interval { block: BlockId(0), start: Start::Operation(OpIdx(0)), end: End::Block };
    assert_eq!(intervals(&image, 0), Ok(vec![defined, WHOLE(1)]));
    assert_eq!(rounds(&image), Ok(2));
}

/// What the first block of the loop reads is known at the end of the last one only after the first pass.
#[test]
fn loop_of_two_blocks() {
    let mut image = started(2);
    block(&mut image, &[], &[], Some((0, 1)), Control::ContinuesTo(2));
    block(&mut image, &[], &[], None, Control::Branches { condition: 1, non_zero: 1, zero: 3 });
    stop(&mut image);
    let image = image.pages();
    assert_eq!((entry_set(&image, 1), exit_set(&image, 1)), (Ok(vec![0]), Ok(vec![0, 1])));
    assert_eq!((entry_set(&image, 2), exit_set(&image, 2)), (Ok(vec![0, 1]), Ok(vec![0])));
    assert_eq!(intervals(&image, 0).map(|all| all[1..].to_vec()), Ok(vec![WHOLE(1), WHOLE(2)]));
    assert_eq!(rounds(&image), Ok(3));
}

/// An operation that reads and defines one local.
#[test]
fn self_loop() {
    let mut image = Image::new(1);
    block(&mut image, &[], &[], Some((0, 0)), Control::ContinuesTo(0));
    image.function(0);
    let image = image.pages();
    assert_eq!((entry_set(&image, 0), exit_set(&image, 0), rounds(&image)), (Ok(vec![0]), Ok(vec![0]), Ok(2)));
    let defined = Interval { block: BlockId(0), start: Start::Operation(OpIdx(0)), end: End::Block };
    let read = Interval { block: BlockId(0), start: Start::Block, end: End::Operation(OpIdx(0)) };
    assert_eq!(intervals(&image, 0), Ok(vec![defined, read]));
}

/// A loop that is entered at both of its blocks.
#[test]
fn irreducible() {
    let mut image = Image::new(3);
    image.operation(Code::SetSmallConst, &[], &[0]);
    image.operation(Code::SetSmallConst, &[], &[1]);
    image.block(&[], &[], Span::new(0, 2), Control::Branches { condition: 0, non_zero: 1, zero: 2 });
    block(&mut image, &[], &[], Some((1, 2)), Control::ContinuesTo(2));
    block(&mut image, &[], &[], None, Control::ContinuesTo(1));
    image.function(0);
    let image = image.pages();
    assert_eq!((entry_set(&image, 0), exit_set(&image, 0)), (Ok(vec![]), Ok(vec![1])));
    for loops in [1, 2] {
        assert_eq!((entry_set(&image, loops), exit_set(&image, loops)), (Ok(vec![1]), Ok(vec![1])));
    }
}

/// Block 2 belongs to both functions.
#[test]
fn shared_block() {
    let mut image = started(2);
    image.blocks[0].control = Control::ContinuesTo(2);
    block(&mut image, &[], &[], None, Control::ContinuesTo(2));
    block(&mut image, &[], &[], Some((0, 1)), Control::LastOpTerminates);
    image.main = Some(image.entries.len() as u32);
    image.function(1);
    let image = image.pages();
    assert_eq!(predecessors(&image, 2), Ok(vec![BlockId(0), BlockId(1)]));
    assert_eq!((exit_set(&image, 0), exit_set(&image, 1)), (Ok(vec![0]), Ok(vec![0])));
    assert_eq!((entry_set(&image, 0), entry_set(&image, 1)), (Ok(vec![]), Ok(vec![0])));
}

/// Block 1 hands its inputs on the other way round; block 2 reads the first of its own.
#[test]
fn swapped_inputs() {
    let mut image = Image::new(5);
    block(&mut image, &[], &[2, 3], None, Control::ContinuesTo(1));
    block(&mut image, &[0, 1], &[1, 0], None, Control::ContinuesTo(2));
    block(&mut image, &[0, 1], &[], Some((0, 4)), Control::LastOpTerminates);
    image.function(0);
    let image = image.pages();
    assert_eq!((entry_set(&image, 2), exit_set(&image, 1)), (Ok(vec![0]), Ok(vec![1])));
    assert_eq!((entry_set(&image, 1), exit_set(&image, 0)), (Ok(vec![1]), Ok(vec![3])));
    assert_eq!(entry_set(&image, 0), Ok(vec![3]));
}

#[test]
fn unvisited_block() {
    let mut image = Image::new(2);
    stop(&mut image);
    block(&mut image, &[], &[], Some((0, 1)), Control::ContinuesTo(1));
    image.function(0);
    let image = image.pages();
    assert_eq!((entry_set(&image, 1), exit_set(&image, 1)), (Ok(vec![]), Ok(vec![])));
    assert_eq!((intervals(&image, 0), predecessors(&image, 1), rounds(&image)), (Ok(vec![]), Ok(vec![]), Ok(1)));
}

#[test]
fn no_locals() {
    let mut image = Image::new(0);
    stop(&mut image);
    image.function(0);
    let image = image.pages();
    assert_eq!((entry_set(&image, 0), exit_set(&image, 0), rounds(&image)), (Ok(vec![]), Ok(vec![]), Ok(1)));
    assert_eq!(intervals(&image, 0), Err(Refusal::UNKNOWN_ID));
}

#[test]
fn all_locals() {
    let mut image = Image::new(MAX_LOCALS);
    let all: Vec<u32> = (0..MAX_LOCALS).collect();
    image.block(&[], &all, Span::EMPTY, Control::InternalReturn);
    image.function(0);
    let image = image.pages();
    assert_eq!((entry_set(&image, 0), exit_set(&image, 0)), (Ok(all), Ok(vec![])));
    assert_eq!(intervals(&image, MAX_LOCALS - 1), Ok(vec![WHOLE(0)]));
}
