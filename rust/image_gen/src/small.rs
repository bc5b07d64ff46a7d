//! Shapes and images of the small kinds; [`Kind`](crate::Kind) says what each is for.

use crate::Rng;
use crate::lifetimes::{self, Lifetimes};
use crate::shape::{self, Codes, Flow, Shape};
use sir_image::{Control, Image};

/// Small images, without a leaning.
pub const PLAIN: Shape = Shape {
    functions: (1, 2),
    blocks: (1, 6),
    operations: (0, 4),
    locals: (1, 8),
    arity: 3,
    arities: 2,
    codes: Codes { allocating: 3, deriving: 4, calling: 1, escaping: 2, plain: 4 },
    controls: [1, 1, 6, 6, 3],
    targets: 3,
    flow: Flow { next: 5, back: 2, any: 3 },
    near: 40,
    rebinding: 20,
    turning: 10,
    overlap: 5,
    sharing: 20,
    shared_bases: 5,
};

pub const DENSE: Shape = Shape { locals: (1, 4), blocks: (1, 5), operations: (1, 6), rebinding: 40, ..PLAIN };

pub const SWITCHES: Shape = Shape { controls: [1, 1, 1, 1, 8], targets: 6, overlap: 20, blocks: (1, 8), ..PLAIN };

pub const CALLS: Shape = Shape {
    functions: (1, 6),
    blocks: (1, 8),
    codes: Codes { allocating: 2, deriving: 2, calling: 8, escaping: 1, plain: 2 },
    sharing: 40,
    ..PLAIN
};

pub const SHARED: Shape = Shape {
    functions: (2, 6),
    blocks: (2, 10),
    arities: 1,
    codes: Codes { allocating: 2, deriving: 2, calling: 3, escaping: 1, plain: 2 },
    flow: Flow { next: 1, back: 1, any: 3 },
    sharing: 90,
    ..PLAIN
};

pub const OVERLAPPING: Shape = Shape { overlap: 60, operations: (1, 4), ..PLAIN };

pub const MEETINGS: Shape = Shape {
    blocks: (1, 5),
    operations: (2, 8),
    locals: (3, 14),
    arities: 1,
    codes: Codes { allocating: 5, deriving: 9, calling: 0, escaping: 0, plain: 1 },
    near: 60,
    shared_bases: 2,
    ..PLAIN
};

pub const BASES: Shape = Shape {
    operations: (1, 5),
    arity: 4,
    arities: 1,
    codes: Codes { allocating: 6, deriving: 4, calling: 1, escaping: 1, plain: 2 },
    near: 60,
    rebinding: 80,
    ..PLAIN
};

pub const CHAINS: Shape = Shape {
    blocks: (3, 12),
    operations: (0, 2),
    locals: (4, 24),
    arity: 4,
    arities: 1,
    codes: Codes { allocating: 2, deriving: 8, calling: 0, escaping: 1, plain: 2 },
    controls: [1, 1, 8, 6, 1],
    flow: Flow { next: 8, back: 1, any: 1 },
    near: 90,
    ..PLAIN
};

pub fn loops(rng: &mut Rng) -> Image {
    let arity = rng.pick(&[2, 4, 8]);
    let shape = Shape {
        blocks: (2, 8),
        locals: (1, 12),
        arity,
        arities: 1,
        controls: [1, 1, 3, 8, 3],
        flow: Flow { next: 5, back: 5, any: 1 },
        near: 70,
        turning: 60,
        ..PLAIN
    };
    shape::image(&shape, rng)
}

/// Small images of unmarked allocations.
pub const LIVES: Lifetimes = Lifetimes {
    groups: (1, 4),
    members: (1, 4),
    values: (1, 3),
    blocks: (1, 6),
    operations: (1, 6),
    arity: 4,
    ends: 16,
    leaks: 0,
    logs: 0,
};

pub fn lives(rng: &mut Rng) -> Image {
    let leaks = rng.pick(&[0, 0, 1, 5]);
    lifetimes::image(&Lifetimes { leaks, ..LIVES }, rng)
}

pub const TOPICS: Lifetimes = Lifetimes { logs: 60, ..LIVES };

/// An entry that branches into a cycle at two places, in a small image.
pub fn irreducible(rng: &mut Rng) -> Image {
    let shape = Shape { blocks: (4, 7), arities: 1, controls: [1, 1, 2, 8, 2], near: 60, sharing: 0, ..PLAIN };
    let mut image = shape::image(&Shape { shared_bases: 100, ..shape }, rng);
    let to = |image: &Image, non_zero, zero| Control::Branches { condition: image.locals - 1, non_zero, zero };
    let last = image.blocks.len() as u32 - 1;
    let arity = image.blocks[0].inputs;
    let arity = arity.end - arity.start;
    for (block, non_zero, zero) in [(0, 1, 2), (1, 2, last), (2, 1, 3)] {
        let outputs: Vec<u32> = (0..arity).map(|_| rng.below(image.locals)).collect();
        image.blocks[block].outputs = image.run(&outputs);
        image.blocks[block].control = to(&image, non_zero, zero);
    }
    if !rng.percent(PLAIN.shared_bases) {
        shape::part_bases(&mut image);
    }
    image
}

/// A small image of a random shape.
pub fn mixed(rng: &mut Rng) -> Image {
    let mut weight = || rng.below(10);
    let codes = Codes {
        allocating: weight(),
        deriving: weight(),
        calling: weight() / 2,
        escaping: weight() / 2,
        plain: weight() + 1,
    };
    let controls = [weight() / 2, weight() / 2, weight(), weight(), weight() + 1];
    let flow = Flow { next: weight(), back: weight(), any: weight() + 1 };
    let most = |rng: &mut Rng, most: u32| (1, 1 + rng.below(most));
    let shape = Shape {
        functions: most(rng, 4),
        blocks: most(rng, 10),
        operations: (0, 1 + rng.below(6)),
        locals: (rng.below(2), 1 + rng.below(20)),
        arity: rng.below(6),
        arities: 1 + rng.below(3),
        codes,
        controls,
        targets: rng.below(6),
        flow,
        near: rng.below(100),
        rebinding: rng.below(100),
        turning: rng.below(100),
        overlap: rng.pick(&[0, 0, 5, 20, 90]),
        sharing: rng.below(100),
        shared_bases: 5,
    };
    shape::image(&shape, rng)
}
