//! Rings of renamed locals, which take many passes of liveness.

use crate::Size;
use sir_image::{Block, BlockId, Code, Control, Image, LocalId, Span};

/// Rings of renamed locals, of which liveness turns one by one place in each pass.
#[derive(Clone, Copy, Debug)]
pub struct Rings {
    /// Number of rings.
    pub rings: u32,
    /// Number of block inputs, which are renamed around.
    pub inputs: u32,
    /// Number of edges from each ring to one block beside it.
    pub edges: u32,
    /// Number of locals that are live over those edges.
    pub carried: u32,
    /// Number of blocks that go on to every ring.
    pub feeders: u32,
}

impl Rings {
    /// As many rings, of as many locals, as a size holds.
    pub const fn most(size: Size) -> Rings {
        Rings { rings: size.blocks / 2, inputs: size.locals - 1, edges: 0, carried: 0, feeders: 0 }
    }

    /// Many rings, many edges from each, and many locals over each edge.
    pub const fn wide(size: Size) -> Rings {
        let half = size.locals / 2;
        Rings { rings: size.blocks / 3, inputs: half, edges: size.targets, carried: half - 1, feeders: 0 }
    }

    /// Many rings, and many edges to each.
    pub const fn fed(size: Size) -> Rings {
        Rings { rings: size.blocks / 4, feeders: size.blocks / 2, ..Rings::most(size) }
    }

    /// The number of blocks of a ring, with the link to the next.
    const fn blocks(self) -> u32 {
        if self.edges > 0 { 3 } else { 2 }
    }

    /// The first block of a ring.
    const fn first(self, ring: u32) -> BlockId {
        self.feeders + self.blocks() * ring
    }

    /// The local after the inputs: every condition, and what is handed on for an input that is dropped.
    const fn spare(self) -> LocalId {
        self.inputs
    }
}

/// Rings in a row, each of which begins to turn when the one after it has turned all the way.
///
/// A ring is a block with the inputs v0, v1, .. and the outputs v1, v2, .. v0 that comes back to itself, so that each
/// pass makes one more of its inputs live. From it a link goes on to the next ring: a block with the same inputs that
/// hands on the last and drops the others. The last ring reads v0. Passes add up, to about `rings` times `inputs`.
///
/// With `edges` above 0 a ring switches over so many targets, all one block that reads the carried locals, and comes
/// back by way of a block between. Feeders come first: each goes on to every ring and to the next feeder, and drops all
/// that the rings want. There can be edges or feeders, not both.
pub fn image(shape: Rings) -> Image {
    let Rings { rings, inputs, edges, feeders, .. } = shape;
    assert!(rings > 0 && inputs > 1 && (edges == 0 || feeders == 0));
    let mut builder = Builder::new(shape);
    builder.targets();
    (0..feeders).for_each(|feeder| builder.feeder(feeder));
    (0..rings).for_each(|ring| builder.ring(ring));
    if edges > 0 {
        builder.block(Span::EMPTY, builder.carry, Control::LastOpTerminates);
    }
    builder.image.function(0);
    builder.image
}

struct Builder {
    shape: Rings,
    image: Image,
    /// The inputs of every block: v0, v1, ..
    inputs: Span,
    /// The outputs of a ring: v1, v2, .., v0.
    turned: Span,
    /// The outputs of a feeder: the spare local for every input.
    dropped: Span,
    /// The outputs of a link: the spare local for every input but the last, which is handed on.
    handed: Span,
    /// Defines the spare local. Links and feeders do so, so that what they drop is live nowhere before them.
    define: Span,
    /// Reads v0.
    read: Span,
    /// Reads the carried locals.
    carry: Span,
}

impl Builder {
    fn new(shape: Rings) -> Builder {
        let (inputs, spare) = (shape.inputs, shape.spare());
        let mut image = Image::new(spare + 1 + shape.carried);
        let turn: Vec<LocalId> = (0..inputs).chain([0]).collect();
        let turn = image.run(&turn);
        let hand: Vec<LocalId> = std::iter::repeat_n(spare, inputs as usize).chain([inputs - 1]).collect();
        let hand = image.run(&hand);
        let define = image.operation(Code::SetSmallConst, &[], &[spare]);
        let read = image.operation(Code::SelfDestruct, &[0], &[]);
        let carry = image.operations.len() as u32;
        for local in spare + 1..image.locals {
            image.operation(Code::SelfDestruct, &[local], &[]);
        }
        let all_but_last = |run: Span| Span::new(run.start, run.end - 1);
        let all_but_first = |run: Span| Span::new(run.start + 1, run.end);
        let one = |operation| Span::new(operation, operation + 1);
        Builder {
            shape,
            inputs: all_but_last(turn),
            turned: all_but_first(turn),
            dropped: all_but_last(hand),
            handed: all_but_first(hand),
            define: one(define),
            read: one(read),
            carry: image.operations_from(carry),
            image,
        }
    }

    /// Every ring for the feeders, or one block again and again for the rings.
    fn targets(&mut self) {
        let Rings { rings, edges, feeders, .. } = self.shape;
        self.image.targets = match feeders {
            0 => vec![self.shape.first(rings) - 1; edges as usize],
            _ => (0..rings).map(|ring| self.shape.first(ring)).collect(),
        };
    }

    fn block(&mut self, outputs: Span, operations: Span, control: Control) {
        self.image.blocks.push(Block { inputs: self.inputs, outputs, operations, control });
    }

    fn switch(&self, count: u32, fallback: BlockId) -> Control {
        Control::Switch { condition: self.shape.spare(), first: 0, count, fallback: Some(fallback) }
    }

    fn feeder(&mut self, feeder: BlockId) {
        self.block(self.dropped, self.define, self.switch(self.shape.rings, feeder + 1));
    }

    /// A ring and, where another follows, the link to it.
    fn ring(&mut self, ring: u32) {
        let (block, next) = (self.shape.first(ring), self.shape.first(ring + 1));
        let last = ring + 1 == self.shape.rings;
        let operations = if last { self.read } else { Span::EMPTY };
        let come_back = match last {
            true => Control::ContinuesTo(block),
            false => Control::Branches { condition: self.shape.spare(), non_zero: block, zero: next - 1 },
        };
        if self.shape.edges > 0 {
            self.block(self.turned, operations, self.switch(self.shape.edges, block + 1));
            self.block(self.inputs, Span::EMPTY, come_back);
        } else {
            self.block(self.turned, operations, come_back);
        }
        if !last {
            self.block(self.handed, self.define, Control::ContinuesTo(next));
        }
    }
}
