//! Images that are known by name.

use crate::{Code, Control, Count, Image, LocalId, Span};
use crate::{MAX_BLOCKS, MAX_FUNCTIONS, MAX_LOCALS, MAX_OPERANDS, MAX_OPERATIONS, MAX_TARGETS};

/// The image of `report`'s example: a pointer that block 0 stores through and block 1 loads through.
pub fn report() -> Image {
    let mut image = Image::new(4);
    image.operation(Code::SetSmallConst, &[], &[0]);
    image.operation_with(Code::StaticAllocZeroed, &[], &[1], [32, 0]);
    image.operation(Code::MemoryStore, &[1, 0], &[]);
    image.block(&[], &[1], Span::new(0, 3), Control::ContinuesTo(1));
    image.operation(Code::MemoryLoad, &[2], &[3]);
    image.operation(Code::Stop, &[], &[]);
    image.block(&[2], &[], Span::new(3, 5), Control::LastOpTerminates);
    image.function(0);
    image
}

/// An image with every count at its limit: 14,665 words, on all 117 pages.
///
/// Each block holds four operations of four inputs and switches over two targets, so that all blocks are visited, all
/// operations run and all words are read.
pub fn largest() -> Image {
    const OPERATIONS: usize = MAX_OPERATIONS / MAX_BLOCKS;
    const INPUTS: usize = MAX_OPERANDS / MAX_OPERATIONS;
    const TARGETS: usize = MAX_TARGETS / MAX_BLOCKS;
    let block_id = |id: usize| (id % MAX_BLOCKS) as u32;
    let mut image = Image::new(MAX_LOCALS);
    for block in 0..MAX_BLOCKS {
        let first = image.operations.len() as u32;
        for _ in 0..OPERATIONS {
            let inputs: [u32; INPUTS] = std::array::from_fn(|i| (image.operands.len() + i) as u32 % MAX_LOCALS);
            image.operation(Code::Log2, &inputs, &[]);
        }
        let targets: [u32; TARGETS] = std::array::from_fn(|i| block_id(2 * block + i));
        let switch = image.switch(MAX_LOCALS - 1, &targets, Some(block_id(block + 1)));
        image.block(&[], &[], image.operations_from(first), switch);
    }
    for function in 0..MAX_FUNCTIONS {
        image.function(block_id(function * MAX_BLOCKS / MAX_FUNCTIONS));
    }
    image.main = Some(MAX_FUNCTIONS as u32 - 1);
    image
}

/// An image whose order is visited as deep as can be: every block goes on to the next, and each last block of a function
/// calls the function of the next block, so that all 256 blocks and 64 functions are under way at once.
pub fn deepest() -> Image {
    const BLOCKS: usize = MAX_BLOCKS / MAX_FUNCTIONS;
    let mut image = Image::new(MAX_LOCALS);
    for function in 0..MAX_FUNCTIONS as u32 {
        let entry = image.function(function * BLOCKS as u32) * BLOCKS as u32;
        for block in entry + 1..entry + BLOCKS as u32 {
            image.block(&[], &[], Span::EMPTY, Control::ContinuesTo(block));
        }
        let first = image.operation_with(Code::StaticAllocZeroed, &[], &[function], [32, function]);
        if function + 1 < MAX_FUNCTIONS as u32 {
            image.operation_with(Code::InternalCall, &[], &[], [function + 1, 0]);
        }
        image.block(&[], &[], image.operations_from(first), Control::InternalReturn);
    }
    image
}

/// Two functions that call each other.
pub fn mutual_calls() -> Image {
    let mut image = Image::new(0);
    for callee in [1, 0] {
        let call = image.operation_with(Code::InternalCall, &[], &[], [callee, 0]);
        let entry = image.block(&[], &[], image.operations_from(call), Control::InternalReturn);
        image.function(entry);
    }
    image
}

/// Two pointers and their sum: local 1, local 2, local 3.
pub fn sum_of_pointers() -> Image {
    let mut image = Image::new(4);
    image.operation_with(Code::StaticAllocZeroed, &[], &[1], [32, 0]);
    image.operation_with(Code::StaticAllocZeroed, &[], &[2], [32, 1]);
    image.operation(Code::Add, &[1, 2], &[3]);
    image.block(&[], &[], Span::new(0, 3), Control::LastOpTerminates);
    image.function(0);
    image
}

/// Two allocations that reach each other's base, locals 0 and 1.
pub fn exchanged_bases() -> Image {
    let mut image = Image::new(2);
    image.operation_with(Code::StaticAllocZeroed, &[], &[0], [32, 0]);
    image.operation_with(Code::StaticAllocZeroed, &[], &[1], [32, 1]);
    image.block(&[0], &[1], Span::new(0, 1), Control::ContinuesTo(1));
    image.block(&[0], &[0], Span::new(1, 2), Control::ContinuesTo(2));
    image.block(&[1], &[], Span::EMPTY, Control::LastOpTerminates);
    image.function(0);
    image
}

/// A pointer that passes the base of another allocation: local 1, the base of allocation 1, is copied from local 0, the
/// base of allocation 0, and local 2, which is stored, from local 1. Allocation 1 is first at local 2, though allocation 0 comes
/// there too.
pub fn through_a_base() -> Image {
    let mut image = Image::new(3);
    image.operation_with(Code::StaticAllocZeroed, &[], &[0], [32, 0]);
    image.operation_with(Code::StaticAllocZeroed, &[], &[1], [32, 1]);
    image.operation(Code::SetCopy, &[0], &[1]);
    image.operation(Code::SetCopy, &[1], &[2]);
    image.operation(Code::MemoryStore, &[0, 2], &[]);
    image.block(&[], &[], Span::new(0, 5), Control::LastOpTerminates);
    image.function(0);
    image
}

/// Eight allocations, with the bases 0 to 7, of which each has its own number as flags: the odd ones are stored, 2, 3, 6 and 7
/// are returned, and those from 4 on meet in local 8.
pub fn every_flag() -> Image {
    let mut image = Image::new(9);
    for base in 0..8 {
        image.operation_with(Code::StaticAllocZeroed, &[], &[base], [32, base]);
    }
    for base in [1, 3, 5, 7] {
        image.operation(Code::MemoryStore, &[base, base], &[]);
    }
    for base in 4..8 {
        image.operation(Code::SetCopy, &[base], &[8]);
    }
    image.block(&[], &[2, 3, 6, 7], image.operations_from(0), Control::InternalReturn);
    image.function(0);
    image
}

/// Two allocations that touch: operation 2 reads the pointer of allocation 0 for the last time, and defines a local that also
/// holds the pointer of allocation 1. The intervals are 1..3, and 3..5 and 6..7.
pub fn touching() -> Image {
    let mut image = Image::new(4);
    image.operation_with(Code::StaticAllocZeroed, &[], &[0], [32, 0]);
    image.operation(Code::Noop, &[], &[]);
    image.operation(Code::MemoryLoad, &[0], &[1]);
    image.operation(Code::Noop, &[], &[]);
    image.operation(Code::MemoryLoad, &[1], &[3]);
    image.operation_with(Code::StaticAllocZeroed, &[], &[2], [32, 1]);
    image.operation(Code::SetCopy, &[2], &[1]);
    image.operation(Code::Stop, &[], &[]);
    image.block(&[], &[], Span::new(0, 8), Control::LastOpTerminates);
    image.function(0);
    image
}

/// The smallest image whose answers differ from the source's: a pointer that is a log's topic.
pub fn topic() -> Image {
    let mut image = Image::new(1);
    image.operation_with(Code::StaticAllocZeroed, &[], &[0], [32, 0]);
    image.operation(Code::Log1, &[0, 0, 0], &[]);
    image.block(&[], &[], Span::new(0, 2), Control::LastOpTerminates);
    image.function(0);
    image
}

/// An allocation for each input position of each of these codes, in turn: its pointer stands there and is used nowhere else.
/// Local 0 is no pointer and stands in the other positions; calls have two inputs. What an operation gives is not used.
pub fn input_positions(codes: &[Code]) -> Image {
    let mut image = Image::new(1);
    image.operation(Code::SetSmallConst, &[], &[0]);
    for &code in codes {
        let (inputs, outputs) = code.operand_counts();
        let inputs = if let Count::Exactly(count) = inputs { count } else { 2 };
        for position in 0..inputs {
            let pointer = image.locals;
            image.operation_with(Code::StaticAllocZeroed, &[], &[pointer], [32, pointer]);
            let mut operands = vec![0; inputs as usize];
            operands[position as usize] = pointer;
            let given: &[LocalId] = if outputs == Count::Exactly(0) { &[] } else { &[pointer + 1] };
            image.operation(code, &operands, given);
            image.locals += 1 + given.len() as u32;
        }
    }
    image.operation(Code::Stop, &[], &[]);
    image.block(&[], &[], image.operations_from(0), Control::LastOpTerminates);
    image.function(0);
    image
}

/// A pointer at each position of each log: `Log0` first, and of each offset, size, topics.
pub fn logs() -> Image {
    input_positions(&Code::LOGS)
}

/// The marks of the allocations of [`logs`]: topics escape, and neither offsets nor sizes do.
#[rustfmt::skip]
pub const LOG_MARKS: [u32; 20] = [
    0, 0,
    0, 0, 1,
    0, 0, 1, 1,
    0, 0, 1, 1, 1,
    0, 0, 1, 1, 1, 1,
];

/// Two allocations that meet in block 0 alone, which has no operations: both live from its start to its end, the first as
/// its condition, the second up to operation 0 of block 1. Block 3, with two operations, is not visited.
pub fn bare_ends() -> Image {
    let mut image = Image::new(3);
    image.block(&[], &[], Span::EMPTY, Control::Branches { condition: 0, non_zero: 1, zero: 2 });
    image.operation(Code::MemoryLoad, &[1], &[2]);
    image.operation_with(Code::StaticAllocZeroed, &[], &[0], [32, 0]);
    image.operation_with(Code::StaticAllocZeroed, &[], &[1], [32, 1]);
    image.operation(Code::Stop, &[], &[]);
    image.block(&[], &[], Span::new(0, 4), Control::LastOpTerminates);
    image.operation(Code::Stop, &[], &[]);
    image.block(&[], &[], Span::new(4, 5), Control::LastOpTerminates);
    image.operation(Code::MemoryLoad, &[0], &[2]);
    image.operation(Code::Stop, &[], &[]);
    image.block(&[], &[], Span::new(5, 7), Control::LastOpTerminates);
    image.function(0);
    image
}

/// Function 0 calls 1; each has a loop. One pointer stays in the loop of function 0, one is stored, one is returned.
pub fn several_functions() -> Image {
    let mut image = Image::new(16);
    image.operation_with(Code::StaticAllocZeroed, &[], &[0], [32, 0]);
    image.operation_with(Code::StaticAllocAnyBytes, &[], &[1], [64, 1]);
    image.operation(Code::SetSmallConst, &[], &[2]);
    image.operation_with(Code::InternalCall, &[2], &[3], [1, 0]);
    image.block(&[], &[0, 2], Span::new(0, 4), Control::ContinuesTo(1));
    image.operation(Code::Add, &[4, 5], &[6]);
    image.operation(Code::MemoryStore, &[6, 3], &[]);
    image.operation(Code::MemoryStore, &[6, 1], &[]);
    image.operation(Code::MemoryLoad, &[4], &[7]);
    image.block(&[4, 5], &[6, 7], Span::new(4, 8), Control::Branches { condition: 7, non_zero: 1, zero: 2 });
    image.operation(Code::Stop, &[], &[]);
    image.block(&[8, 9], &[], Span::new(8, 9), Control::LastOpTerminates);
    image.operation(Code::SetSmallConst, &[], &[10]);
    image.operation(Code::DynamicAllocZeroed, &[10], &[11]);
    image.block(&[], &[11], Span::new(9, 11), Control::ContinuesTo(4));
    image.operation(Code::SetCopy, &[12], &[13]);
    let branch = Control::Branches { condition: 10, non_zero: 4, zero: 5 };
    image.block(&[12], &[13], Span::new(11, 12), branch);
    image.block(&[14], &[14], Span::new(12, 12), Control::InternalReturn);
    image.function(0);
    image.function(3);
    image.main = Some(1);
    image
}

/// 65 allocations, one more than a series of the chart has. Block 0 makes them, with their numbers as bases, and reads through
/// one third; block 1 reads through another third, lets some of the rest escape, and calls function 1 by both codes; block 2,
/// all of function 1, has these two calls too.
pub fn two_series() -> Image {
    const COUNT: LocalId = 65;
    let mut image = Image::new(COUNT);
    for base in 0..COUNT {
        image.operation_with(Code::StaticAllocZeroed, &[], &[base], [32, base]);
    }
    for base in (0..COUNT).step_by(3) {
        image.operation(Code::SelfDestruct, &[base], &[]);
    }
    image.block(&[], &[], image.operations_from(0), Control::ContinuesTo(1));
    let second = image.operations.len() as u32;
    for base in (1..COUNT).step_by(3) {
        image.operation(Code::SelfDestruct, &[base], &[]);
    }
    for base in (2..COUNT).step_by(6) {
        image.operation(Code::MemoryStore, &[base, base], &[]);
    }
    let calls = image.operation_with(Code::InternalCall, &[], &[], [1, 0]);
    image.operation_with(Code::InternalCallNever, &[], &[], [1, 0]);
    image.block(&[], &[], image.operations_from(second), Control::LastOpTerminates);
    image.block(&[], &[], image.operations_from(calls), Control::InternalReturn);
    image.function(0);
    image.function(2);
    image
}

#[cfg(test)]
mod tests {
    use super::*;
    use crate::pages::{self, MAX_PAGES, PAGE_BYTES};

    #[test]
    fn report_as_words() {
        #[rustfmt::skip]
        let words = [
            1, 1, 2, 5, 8, 0, 4, 0, 0,
            0,
            4, 4, 4, 5, 0, 3, 2, 1, 0, 0, 0,
            7, 8, 8, 8, 3, 5, 0, 0, 0, 0, 0,
            86, 0, 0, 0, 1, 0, 0,
            82, 1, 1, 1, 2, 32, 0,
            24, 2, 4, 4, 4, 0, 0,
            84, 5, 6, 6, 7, 0, 0,
            77, 7, 7, 7, 7, 0, 0,
            0, 1, 1, 0, 1, 2, 3, 2,
        ];
        assert_eq!(report().words(), words);
        assert_eq!(report().pages().len(), PAGE_BYTES);
    }

    #[test]
    fn largest_fills_every_page() {
        let image = largest();
        assert_eq!(image.entries.len(), MAX_FUNCTIONS);
        assert_eq!(image.blocks.len(), MAX_BLOCKS);
        assert_eq!(image.operations.len(), MAX_OPERATIONS);
        assert_eq!(image.operands.len(), MAX_OPERANDS);
        assert_eq!(image.targets.len(), MAX_TARGETS);
        assert_eq!(image.locals, MAX_LOCALS);
        assert_eq!(image.word_count(), 14_665);
        assert_eq!(pages::page_count(image.word_count()), MAX_PAGES);
        assert_eq!(image.pages().len(), 59_904);
    }
}
