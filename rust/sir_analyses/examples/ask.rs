//! Writes the image of a small program and asks which of its buffers may lie over each other, and what keeps the others from
//! it; then writes it again with one of them enlarged. From the folder `rust`, once `tools/staticlib` has built the library:
//!
//! ```text
//! cargo run --offline -p sir_analyses --example ask
//! ```
//!
//! Only buffers of one function are held to each other, for a place in that function's frame. A call is one step of the
//! function that makes it, so intervals do not tell that a buffer of the callee is in use while one of the caller waits for
//! the call to return.

use sir_analyses::{AllocId, Allocation, BlockId, End, FunctionBlocks, Interval, Refusal, Start};
use sir_image::{Code, Control, Image};

/// Two buffers, the first of them read for the last time before the second is made, and one that a call gets to see.
pub fn program() -> Vec<u8> {
    let mut image = Image::new(6);
    let first = image.operation(Code::SetSmallConst, &[], &[0]);
    image.operation_with(Code::StaticAllocZeroed, &[], &[1], [64, 0]);
    image.operation(Code::MemoryStore, &[1, 0], &[]);
    image.operation(Code::MemoryLoad, &[1], &[2]);
    image.block(&[], &[], image.operations_from(first), Control::ContinuesTo(1));
    let second = image.operation_with(Code::StaticAllocAnyBytes, &[], &[3], [64, 1]);
    image.operation(Code::MemoryStore, &[3, 2], &[]);
    image.operation_with(Code::DynamicAllocZeroed, &[0], &[4], [0, 0]);
    image.operation(Code::MemoryStore, &[3, 4], &[]);
    image.operation(Code::Stop, &[], &[]);
    image.block(&[], &[], image.operations_from(second), Control::LastOpTerminates);
    image.function(0);
    image.pages()
}

/// Where an allocation needs its bytes: at the operation that makes it, which may clear them, and in its intervals.
fn needed(allocation: &Allocation) -> Vec<Interval> {
    let operation = allocation.operation;
    let made = Interval { block: allocation.block, start: Start::Operation(operation), end: End::Operation(operation) };
    [&[made], allocation.intervals.as_slice()].concat()
}

/// Whether two stretches have a point in common, both ends counted.
fn meet(a: &Interval, b: &Interval) -> bool {
    let first = |start| match start {
        Start::Block => 0,
        Start::Operation(operation) => u64::from(operation.0) + 1,
    };
    let last = |end| match end {
        End::Operation(operation) => u64::from(operation.0) + 1,
        End::Block => u64::MAX,
    };
    a.block == b.block && first(a.start) <= last(b.end) && first(b.start) <= last(a.end)
}

/// Whether one function of the order has both blocks. A block that two functions share is listed under one of them alone; a
/// program with such blocks needs the functions' blocks by successors from each entry instead.
fn in_one_function(order: &[FunctionBlocks], one: BlockId, other: BlockId) -> bool {
    order.iter().any(|function| function.blocks.contains(&one) && function.blocks.contains(&other))
}

/// Whether two allocations may have the same place in the frame of their function: they are of one function, neither is
/// marked, and nowhere do both need their bytes.
pub fn may_share(order: &[FunctionBlocks], one: &Allocation, other: &Allocation) -> bool {
    let (needed, by_other) = (needed(one), needed(other));
    in_one_function(order, one.block, other.block)
        && !one.marked
        && !other.marked
        && !needed.iter().any(|a| by_other.iter().any(|b| meet(a, b)))
}

/// Each pair of allocations that may share their memory.
pub fn pairs(image: &[u8]) -> Result<Vec<(usize, usize)>, Refusal> {
    let order = sir_analyses::order(image)?;
    let all = sir_analyses::all_allocations(image)?;
    let pairs = (0..all.len()).flat_map(|one| (0..one).map(move |other| (other, one)));
    Ok(pairs.filter(|&(one, other)| may_share(&order, &all[one], &all[other])).collect())
}

/// Why an allocation is marked, in words; `None` where it is not.
pub fn why(allocation: &Allocation) -> Option<String> {
    let causes: Vec<String> = allocation.causes().map(|cause| cause.to_string()).collect();
    allocation.marked.then(|| causes.join(" and "))
}

/// The image with another size of a static allocation, all else as it was.
pub fn resized(image: &[u8], allocation: AllocId, size: u32) -> Result<Vec<u8>, Refusal> {
    let operation = sir_analyses::allocation(image, allocation)?.operation;
    let mut program = Image::from_words(&sir_analyses::records(image)?).expect("records of an accepted image");
    program.operations[operation.0 as usize].extras[0] = size;
    sir_analyses::write(&program.words())
}

fn show(image: &[u8]) -> Result<(), Refusal> {
    for (number, allocation) in sir_analyses::all_allocations(image)?.iter().enumerate() {
        println!("{number}: {allocation:?}");
        if let Some(why) = why(allocation) {
            println!("   its memory is never free: {why}");
        }
    }
    println!("may share their memory: {:?}", pairs(image)?);
    Ok(())
}

fn main() -> Result<(), Refusal> {
    let image = program();
    show(&image)?;
    println!("allocation 0 with 96 bytes:");
    show(&resized(&image, AllocId(0), 96)?)
}
