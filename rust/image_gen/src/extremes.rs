//! The worst of the legal images: those that take the most work.

use crate::Rng;
use sir_image::{Block, Code, Control, Image, LocalId, Operation, Span};
use sir_image::{MAX_BLOCKS, MAX_LOCALS, MAX_OPERANDS, MAX_OPERATIONS, MAX_TARGETS};

/// How much of the worst there is to be.
#[derive(Clone, Copy, Debug)]
pub struct Size {
    /// Number of blocks.
    pub blocks: u32,
    /// Number of operations.
    pub operations: u32,
    /// Number of operand words.
    pub operands: u32,
    /// Number of case targets.
    pub targets: u32,
    /// Number of locals.
    pub locals: u32,
}

impl Size {
    /// All counts at their limits.
    pub const FULL: Size = Size {
        blocks: MAX_BLOCKS as u32,
        operations: MAX_OPERATIONS as u32,
        operands: MAX_OPERANDS as u32,
        targets: MAX_TARGETS as u32,
        locals: MAX_LOCALS,
    };

    /// Small enough for analyses that take each operand place of each block by itself, in each pass.
    pub const MEDIUM: Size = Size { blocks: 48, operations: 128, operands: 512, targets: 48, locals: 96 };

    /// Small enough to be compared by the hundred.
    pub const SMALL: Size = Size { blocks: 24, operations: 40, operands: 96, targets: 20, locals: 48 };
}

/// Every block holds all operations, every operation is a call over all operand words, and every block switches over
/// all targets.
///
/// Where `outputs` is set the calls also define all locals. Few locals make the uses of each long.
pub fn spanning(size: Size, outputs: bool, rng: &mut Rng) -> Image {
    let mut image = Image::new(size.locals);
    image.operands = (0..size.operands).map(|_| rng.below(size.locals)).collect();
    image.targets = (0..size.targets).map(|_| rng.below(size.blocks)).collect();
    let all = Span::new(0, size.operands);
    for _ in 0..size.operations {
        let outputs = if outputs { all } else { Span::EMPTY };
        let extras = [rng.below(4), 0];
        image.operations.push(Operation { code: Code::InternalCall.into(), inputs: all, outputs, extras });
    }
    for block in 0..size.blocks {
        let condition = rng.below(size.locals);
        let fallback = Some((block + 1) % size.blocks);
        image.blocks.push(Block {
            inputs: Span::EMPTY,
            outputs: Span::EMPTY,
            operations: Span::new(0, size.operations),
            control: Control::Switch { condition, first: 0, count: size.targets, fallback },
        });
    }
    for _ in 0..4 {
        image.function(rng.below(size.blocks));
    }
    image
}

/// Many allocations whose reaches meet through chains of deriving operations that all blocks hold.
///
/// Block 0 alone allocates, one base for each local that there is room for; the other blocks derive.
pub fn allocating(size: Size, rng: &mut Rng) -> Image {
    let mut image = Image::new(size.locals);
    let bases = size.locals.min(size.operations / 2);
    for base in 0..bases {
        image.operation_with(Code::StaticAllocZeroed, &[], &[base], [32, base]);
    }
    while (image.operations.len() as u32) < size.operations {
        let (from, to) = (rng.below(size.locals), rng.below(size.locals));
        if rng.percent(90) {
            image.operation(Code::SetCopy, &[from], &[to]);
        } else {
            image.operation(Code::MemoryLoad, &[from], &[to]);
        }
    }
    let rest = Span::new(bases, size.operations);
    for block in 0..size.blocks {
        let operations = if block == 0 { Span::new(0, size.operations) } else { rest };
        let control = Control::Branches { condition: 0, non_zero: (block + 1) % size.blocks, zero: block };
        image.block(&[], &[], operations, control);
    }
    image.function(0);
    image
}

/// Allocations that stay unmarked, with intervals in every block.
///
/// Local v is the base of allocation v, defined in block 0; all other blocks load through every base again and again.
pub fn long_lived(size: Size, rng: &mut Rng) -> Image {
    let mut image = Image::new(size.locals);
    let bases = (size.locals - 1).min(size.operations / 2);
    for base in 0..bases {
        image.operation_with(Code::StaticAllocZeroed, &[], &[base], [32, base]);
    }
    while (image.operations.len() as u32) < size.operations {
        image.operation(Code::MemoryLoad, &[rng.below(bases)], &[size.locals - 1]);
    }
    for block in 0..size.blocks {
        let first = if block == 0 { 0 } else { bases };
        let control = Control::Branches { condition: 0, non_zero: (block + 1) % size.blocks, zero: block };
        image.block(&[], &[], Span::new(first, size.operations), control);
    }
    image.function(0);
    image
}

/// Every block takes all locals as inputs and hands on all locals as outputs, each time in another order, and switches
/// over all targets. One allocation reaches every local.
pub fn renaming(size: Size, rng: &mut Rng) -> Image {
    let locals = size.locals;
    let mut image = Image::new(locals);
    // Each order stands twice, so that every run that begins in its first half holds each local once.
    for _ in 0..size.operands / (2 * locals) {
        let mut order: Vec<LocalId> = (0..locals).collect();
        rng.shuffle(&mut order);
        image.run(&order);
        image.run(&order);
    }
    let orders = image.operands.len() as u32 / (2 * locals);
    let allocate = image.operations.len() as u32;
    image.operations.push(Operation {
        code: Code::StaticAllocZeroed.into(),
        inputs: Span::EMPTY,
        outputs: Span::new(0, 1),
        extras: [32, 0],
    });
    image.targets = (0..size.targets).map(|_| rng.below(size.blocks)).collect();
    for block in 0..size.blocks {
        let mut run = || {
            let start = 2 * locals * rng.below(orders) + rng.below(locals);
            Span::new(start, start + locals)
        };
        let (inputs, outputs) = (run(), run());
        let operations = if block == 0 { Span::new(allocate, allocate + 1) } else { Span::EMPTY };
        let fallback = Some((block + 1) % size.blocks);
        let control = Control::Switch { condition: rng.below(locals), first: 0, count: size.targets, fallback };
        image.blocks.push(Block { inputs, outputs, operations, control });
    }
    image.function(0);
    image
}

/// The longest chart of a size: one allocation more than fills all series but the last, all made by block 0, and every block with
/// all other operations. Of the allocations one third is read in every block, one third is marked, one third is never read. Each
/// local is given once.
pub fn charted(size: Size) -> Image {
    const SERIES: u32 = 64;
    let bases = 1 + SERIES * ((size.locals - 1) / SERIES);
    let mut image = Image::new(size.locals);
    for base in 0..bases {
        image.operation_with(Code::StaticAllocZeroed, &[], &[base], [32, base]);
    }
    for index in bases..size.operations {
        let base = index * 7 % bases;
        match (index % 16, base % 3) {
            (0, _) => _ = image.operation_with(Code::InternalCall, &[], &[], [0, 0]),
            (8, _) => _ = image.operation_with(Code::InternalCallNever, &[], &[], [0, 0]),
            (_, 0) => _ = image.operation(Code::SelfDestruct, &[base], &[]),
            (_, 1) => _ = image.operation(Code::MemoryStore, &[0, base], &[]),
            _ => _ = image.operation(Code::Noop, &[], &[]),
        }
    }
    for block in 0..size.blocks {
        let first = if block == 0 { 0 } else { bases };
        let next = block + 1;
        let control = if next < size.blocks { Control::ContinuesTo(next) } else { Control::LastOpTerminates };
        image.block(&[], &[], Span::new(first, size.operations), control);
    }
    image.function(0);
    image
}
