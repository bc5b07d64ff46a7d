//! Images whose pointers mostly keep to themselves, so that many allocations stay unmarked and their intervals matter.

use crate::{Rng, shape};
use sir_image::{Block, BlockId, Code, Control, Image, LocalId, MAX_OPERANDS, Span};

/// Codes that derive from two inputs.
const DERIVING: [Code; 8] =
    [Code::Add, Code::Sub, Code::Mul, Code::Mod, Code::Exp, Code::And, Code::Shl, Code::SignExtend];

/// What images are to look like.
#[derive(Clone, Copy, Debug)]
pub struct Lifetimes {
    /// Number of groups of locals, each with an allocation of its own.
    pub groups: (u32, u32),
    /// Number of locals of a group.
    pub members: (u32, u32),
    /// Number of locals that hold no pointer.
    pub values: (u32, u32),
    /// Number of blocks.
    pub blocks: (u32, u32),
    /// Number of operations of a block.
    pub operations: (u32, u32),
    /// The most inputs of a block.
    pub arity: u32,
    /// Chance in a hundred that a block has no successor.
    pub ends: u32,
    /// Chance in a hundred that an operand is just any local.
    pub leaks: u32,
    /// Chance in a hundred that an operation is a log of any kind.
    pub logs: u32,
}

/// A random image of that kind.
pub fn image(shape: &Lifetimes, rng: &mut Rng) -> Image {
    Builder::new(shape, rng).image()
}

struct Builder<'a> {
    shape: &'a Lifetimes,
    rng: &'a mut Rng,
    image: Image,
    /// The first local of each group, then the first value, then the number of locals.
    starts: Vec<LocalId>,
    /// The group of each position of block inputs; they are the same in all blocks.
    positions: Vec<usize>,
    allocated: Vec<bool>,
}

impl<'a> Builder<'a> {
    fn new(shape: &'a Lifetimes, rng: &'a mut Rng) -> Self {
        let mut starts = vec![0];
        let groups = rng.between(shape.groups);
        for group in 0..=groups {
            let members = rng.between(if group < groups { shape.members } else { shape.values });
            starts.push(starts[group as usize] + members);
        }
        let image = Image::new(starts[groups as usize + 1]);
        let mut builder =
            Builder { shape, rng, image, starts, positions: Vec::new(), allocated: vec![false; groups as usize] };
        for _ in 0..builder.rng.between((0, shape.arity)) {
            let group = builder.rng.below(groups + 1) as usize;
            let taken = builder.positions.iter().filter(|&&other| other == group).count();
            if taken < builder.members(group) {
                builder.positions.push(group);
            }
        }
        builder
    }

    fn groups(&self) -> usize {
        self.allocated.len()
    }

    fn members(&self, group: usize) -> usize {
        (self.starts[group + 1] - self.starts[group]) as usize
    }

    /// A local of a group; the last group is that of the values.
    fn of(&mut self, group: usize) -> LocalId {
        if self.rng.percent(self.shape.leaks) {
            return self.rng.below(self.image.locals);
        }
        self.member(group)
    }

    fn member(&mut self, group: usize) -> LocalId {
        self.rng.between((self.starts[group], self.starts[group + 1] - 1))
    }

    fn value(&mut self) -> LocalId {
        self.of(self.groups())
    }

    fn group(&mut self) -> usize {
        self.rng.below(self.groups() as u32) as usize
    }

    fn pointer(&mut self) -> LocalId {
        let group = self.group();
        self.of(group)
    }

    fn image(mut self) -> Image {
        let blocks = self.rng.between(self.shape.blocks);
        for block in 0..blocks {
            let inputs = self.inputs();
            let first = self.image.operations.len() as u32;
            // What the inputs and outputs of this block and those to come will take, and one operation.
            let reserve = 2 * self.positions.len() * (blocks - block) as usize + 8;
            for _ in 0..self.rng.between(self.shape.operations) {
                if self.image.operands.len() + reserve <= MAX_OPERANDS {
                    self.operation();
                }
            }
            let operations = self.image.operations_from(first);
            let outputs: Vec<LocalId> = self.positions.clone().into_iter().map(|group| self.of(group)).collect();
            let inputs = self.image.run(&inputs);
            let outputs = self.image.run(&outputs);
            let control = self.control(block, blocks);
            let outputs = if control == Control::InternalReturn { Span::EMPTY } else { outputs };
            self.image.blocks.push(Block { inputs, outputs, operations, control });
        }
        self.image.function(0);
        shape::part_bases(&mut self.image);
        self.image
    }

    /// Inputs by position, no local twice.
    fn inputs(&mut self) -> Vec<LocalId> {
        let mut inputs = Vec::new();
        for group in self.positions.clone() {
            let mut local = self.member(group);
            while inputs.contains(&local) {
                local = self.member(group);
            }
            inputs.push(local);
        }
        inputs
    }

    fn control(&mut self, block: BlockId, blocks: u32) -> Control {
        let next = (block + 1) % blocks;
        if self.rng.percent(self.shape.ends) {
            return self.rng.pick(&[Control::LastOpTerminates, Control::InternalReturn]);
        }
        match self.rng.weighted(&[3, 5, 2]) {
            0 => Control::ContinuesTo(next),
            1 => {
                let condition = if self.rng.percent(20) { self.pointer() } else { self.value() };
                Control::Branches { condition, non_zero: self.rng.below(blocks), zero: next }
            }
            _ => {
                let targets = [next, self.rng.below(blocks)];
                let condition = self.value();
                self.image.switch(condition, &targets, None)
            }
        }
    }

    /// An operation on a pointer of some group.
    fn operation(&mut self) {
        let group = self.group();
        let pointer = self.of(group);
        let (value, other) = (self.value(), self.value());
        if !self.allocated[group] && self.rng.percent(40) {
            return self.allocate(group, pointer, value);
        }
        // Shapes without logs draw nothing here.
        if self.shape.logs > 0 && self.rng.percent(self.shape.logs) {
            return self.log(pointer);
        }
        match self.rng.below(16) {
            0..=2 => self.derive(group, pointer, value),
            3 | 4 => {
                let to = self.of(group);
                self.image.operation(Code::SetCopy, &[pointer], &[to]);
            }
            number => self.access(number, pointer, value, other),
        }
    }

    fn allocate(&mut self, group: usize, pointer: LocalId, size: LocalId) {
        self.allocated[group] = true;
        if self.rng.percent(30) {
            self.image.operation(Code::DynamicAllocZeroed, &[size], &[pointer]);
        } else {
            self.image.operation_with(Code::StaticAllocZeroed, &[], &[pointer], [32, group as u32]);
        }
    }

    fn derive(&mut self, group: usize, pointer: LocalId, value: LocalId) {
        let code = self.rng.pick(&DERIVING);
        let inputs = self.rng.pick(&[[pointer, value], [value, pointer], [pointer, pointer]]);
        let to = self.of(group);
        self.image.operation(code, &inputs, &[to]);
    }

    /// A log with the pointer as its offset, and now and then one as its size or as a topic.
    fn log(&mut self, offset: LocalId) {
        let topics = self.rng.below(Code::LOGS.len() as u32);
        let mut operands = vec![offset];
        for chance in [25].into_iter().chain((0..topics).map(|_| 10)) {
            let operand = if self.rng.percent(chance) { self.pointer() } else { self.value() };
            operands.push(operand);
        }
        self.image.operation(Code::LOGS[topics as usize], &operands, &[]);
    }

    /// An operation that neither allocates nor derives from the pointer, by its number from 5 to 15.
    fn access(&mut self, number: u32, pointer: LocalId, value: LocalId, other: LocalId) {
        let image = &mut self.image;
        match number {
            5 => _ = image.operation(Code::MemoryLoad, &[pointer], &[value]),
            6 => _ = image.operation(Code::MemoryStore, &[pointer, value], &[]),
            7 => {
                let from = self.pointer();
                self.image.operation(Code::MemoryCopy, &[pointer, from, value], &[]);
            }
            8 => _ = image.operation(Code::CallDataCopy, &[pointer, value, other], &[]),
            9 => _ = image.operation(Code::Keccak256, &[pointer, value], &[other]),
            10 => {
                let result = self.pointer();
                let inputs = [value, other, value, pointer, other, result, value];
                let to = self.value();
                self.image.operation(Code::Call, &inputs, &[to]);
            }
            11 => {
                let size = self.pointer();
                self.image.operation(Code::Log2, &[pointer, size, value, other], &[]);
            }
            12 => {
                let other = self.pointer();
                self.image.operation(Code::Lt, &[pointer, other], &[value]);
            }
            13 => _ = image.operation(Code::SetSmallConst, &[], &[pointer]),
            14 => _ = image.operation(Code::SetLargeConst, &[], &[value]),
            _ => _ = image.operation(Code::Add, &[value, other], &[other]),
        }
    }
}
