//! Images of the large kinds; [`Kind`](crate::Kind) says what each is for.

use crate::lifetimes::{self, Lifetimes};
use crate::rings::{self, Rings};
use crate::shape::{self, Codes, Flow, Shape};
use crate::small::PLAIN;
use crate::{Rng, Size, extremes};
use sir_image::{Code, Control, Image, Operation, Span};
use sir_image::{MAX_BLOCKS, MAX_FUNCTIONS, MAX_LOCALS, MAX_OPERANDS, MAX_OPERATIONS, MAX_TARGETS};

/// An image such as a front end writes: 20 to 60 blocks, several functions that are all called, no overlap.
pub fn typical(rng: &mut Rng) -> Image {
    let shape =
        Shape { functions: (2, 8), blocks: (20, 60), operations: (3, 12), locals: (80, 400), arity: 4, ..PLAIN };
    let codes = Codes { allocating: 2, deriving: 10, calling: 1, escaping: 4, plain: 14 };
    let flow = Flow { next: 90, back: 8, any: 2 };
    let shape = Shape { codes, controls: [0, 1, 30, 30, 8], targets: 5, flow, near: 75, rebinding: 5, ..shape };
    let mut image = shape::image(&Shape { overlap: 0, sharing: 0, shared_bases: 0, ..shape }, rng);
    let functions = image.entries.len();
    for function in 0..functions {
        // The last block of a function returns.
        let end = image.entries.get(function + 1).map_or(image.blocks.len(), |&next| next as usize);
        image.blocks[end - 1].control = Control::InternalReturn;
        // Its first operation calls the next function.
        if function + 1 < functions {
            let first = image.blocks[image.entries[function] as usize].operations.start as usize;
            image.operations[first].code = Code::InternalCall.into();
            image.operations[first].extras = [function as u32 + 1, 0];
        }
    }
    shape::part_bases(&mut image);
    image
}

/// An image of that size whose allocations mostly stay unmarked.
pub fn typical_lives(rng: &mut Rng) -> Image {
    let shape = Lifetimes {
        groups: (4, 20),
        members: (2, 6),
        values: (10, 60),
        blocks: (20, 60),
        operations: (2, 8),
        arity: 5,
        ends: 3,
        leaks: rng.pick(&[0, 0, 1]),
        logs: 0,
    };
    lifetimes::image(&shape, rng)
}

/// A random image with all counts at their limits, or a few below.
pub fn full_size(rng: &mut Rng) -> Image {
    let functions = MAX_FUNCTIONS as u32 - if rng.percent(50) { 0 } else { rng.below(3) };
    let functions = (functions, functions);
    let blocks = (MAX_BLOCKS as u32 - 2, MAX_BLOCKS as u32);
    let locals = (MAX_LOCALS - 2, MAX_LOCALS);
    let shape = Shape { functions, blocks, operations: (2, 5), locals, arity: 5, arities: 3, ..PLAIN };
    let codes = Codes { allocating: 3, deriving: 10, calling: 2, escaping: 6, plain: 10 };
    let flow = Flow { next: 80, back: 10, any: 10 };
    let shape = Shape { codes, controls: [1, 1, 40, 30, 20], targets: 8, flow, near: 60, rebinding: 10, ..shape };
    let mut image = shape::image(&Shape { overlap: 2, sharing: 30, shared_bases: 0, ..shape }, rng);
    fill(&mut image, rng);
    image
}

/// A random image of unmarked allocations, filled up to the limits.
pub fn full_lives(rng: &mut Rng) -> Image {
    let shape = Lifetimes {
        groups: (60, 100),
        members: (3, 4),
        values: (60, 112),
        blocks: (MAX_BLOCKS as u32, MAX_BLOCKS as u32),
        operations: (3, 4),
        arity: 4,
        ends: 1,
        leaks: 0,
        logs: 0,
    };
    let mut image = lifetimes::image(&shape, rng);
    fill(&mut image, rng);
    image
}

/// Adds operations, operand words, targets, locals and functions up to their limits; cuts operations above.
fn fill(image: &mut Image, rng: &mut Rng) {
    image.locals = MAX_LOCALS;
    image.operations.truncate(MAX_OPERATIONS);
    let all = image.operations.len() as u32;
    for block in &mut image.blocks {
        let Span { start, end } = block.operations;
        block.operations = Span::new(start.min(all), end.min(all));
    }
    while image.operations.len() < MAX_OPERATIONS {
        let extras = [0, 0];
        let operation = Operation { code: Code::Noop.into(), inputs: Span::EMPTY, outputs: Span::EMPTY, extras };
        image.operations.push(operation);
    }
    while image.operands.len() < MAX_OPERANDS {
        image.operands.push(rng.below(MAX_LOCALS));
    }
    while image.targets.len() < MAX_TARGETS {
        image.targets.push(rng.below(image.blocks.len() as u32));
    }
    while image.entries.len() < MAX_FUNCTIONS {
        image.function(rng.below(image.blocks.len() as u32));
    }
}

pub fn small_spanning(rng: &mut Rng) -> Image {
    let outputs = rng.percent(50);
    let size = Size { locals: rng.between((1, 48)), blocks: rng.between((4, 24)), ..Size::SMALL };
    extremes::spanning(size, outputs, rng)
}

pub fn small_rings(rng: &mut Rng) -> Image {
    let few = Rings { rings: rng.between((1, 8)), inputs: rng.between((2, 40)), ..Rings::most(Size::SMALL) };
    rings::image(match rng.below(3) {
        0 => few,
        1 => Rings { edges: 3, carried: 9, ..few },
        _ => Rings { feeders: 4, ..few },
    })
}

pub fn small_allocating(rng: &mut Rng) -> Image {
    let size = Size { operations: 160, ..Size::SMALL };
    if rng.percent(50) { extremes::allocating(size, rng) } else { extremes::long_lived(size, rng) }
}

pub fn small_renaming(rng: &mut Rng) -> Image {
    let size = Size { locals: rng.between((1, 12)), targets: rng.between((0, 6)), ..Size::SMALL };
    extremes::renaming(size, rng)
}
