//! Random images of a given shape.

use crate::Rng;
use sir_image::{Block, BlockId, Code, Control, Count, Image, LocalId, MAX_OPERANDS, MAX_TARGETS, Operation, Span};

/// Groups of codes, for which a [`Shape`] gives weights.
#[derive(Clone, Copy, Debug)]
#[allow(missing_docs)]
pub struct Codes {
    pub allocating: u32,
    pub deriving: u32,
    pub calling: u32,
    /// Those up to `MemoryStore` that do not allocate; all of them have escaping inputs.
    pub escaping: u32,
    /// All others, logs among them.
    pub plain: u32,
}

impl Codes {
    fn pick(self, rng: &mut Rng) -> Code {
        let weights = [self.allocating, self.deriving, self.calling, self.escaping, self.plain];
        let group = rng.weighted(&weights);
        loop {
            let code = rng.pick(&Code::ALL);
            if group_of(code) == group {
                return code;
            }
        }
    }
}

fn group_of(code: Code) -> usize {
    match code as u32 {
        21 | 22 | 82 | 83 => 0,
        27..=37 | 44..=51 | 85 => 1,
        25 | 26 => 2,
        0..=24 => 3,
        _ => 4,
    }
}

/// Where the first successor of a block lies, by weight.
#[derive(Clone, Copy, Debug)]
pub struct Flow {
    /// The block after it.
    pub next: u32,
    /// A block up to it.
    pub back: u32,
    /// Any block.
    pub any: u32,
}

/// What images are to look like. Pairs are bounds, both counted; percentages are chances.
#[derive(Clone, Copy, Debug)]
pub struct Shape {
    /// Number of functions.
    pub functions: (u32, u32),
    /// Number of blocks.
    pub blocks: (u32, u32),
    /// Number of operations of a block.
    pub operations: (u32, u32),
    /// Number of locals.
    pub locals: (u32, u32),
    /// The most inputs of a block.
    pub arity: u32,
    /// How many arities there are at the most; the successors of one block share theirs.
    pub arities: u32,
    /// Weights of the codes.
    pub codes: Codes,
    /// Weights of the control kinds.
    pub controls: [u32; 5],
    /// The most targets of a switch.
    pub targets: u32,
    /// Weights of the flow.
    pub flow: Flow,
    /// That an operand is an input of the block or an output of an operation before it.
    pub near: u32,
    /// That an output of an operation is an input of some block.
    pub rebinding: u32,
    /// That the outputs of a block are its inputs in another order, where there are as many.
    pub turning: u32,
    /// That an operand run, an operation range or a run of targets lies anywhere among what is there.
    pub overlap: u32,
    /// That the entry of a function is any block, so that functions share blocks, and that init is any function.
    pub sharing: u32,
    /// That two allocations may share a base.
    pub shared_bases: u32,
}

/// A random image of a shape.
pub fn image(shape: &Shape, rng: &mut Rng) -> Image {
    let mut builder = Builder::new(shape, rng);
    builder.inputs();
    builder.blocks();
    builder.functions();
    let mut image = builder.image;
    if !rng.percent(shape.shared_bases) {
        part_bases(&mut image);
    }
    image
}

struct Builder<'a> {
    shape: &'a Shape,
    rng: &'a mut Rng,
    image: Image,
    functions: u32,
    /// The inputs of each block.
    inputs: Vec<Span>,
    /// Locals that are at hand in the current block.
    near: Vec<LocalId>,
}

impl<'a> Builder<'a> {
    fn new(shape: &'a Shape, rng: &'a mut Rng) -> Self {
        let image = Image::new(rng.between(shape.locals));
        let functions = rng.between(shape.functions);
        Builder { shape, rng, image, functions, inputs: Vec::new(), near: Vec::new() }
    }

    fn local(&mut self) -> LocalId {
        if !self.near.is_empty() && self.rng.percent(self.shape.near) {
            return self.rng.pick(&self.near);
        }
        self.rng.below(self.image.locals)
    }

    fn output(&mut self) -> LocalId {
        if self.rng.percent(self.shape.rebinding) {
            let run = self.rng.pick(&self.inputs);
            if run.start < run.end {
                return self.image.operands[self.rng.between((run.start, run.end - 1)) as usize];
            }
        }
        self.rng.below(self.image.locals)
    }

    /// A run of operand words: one of those that are there, or a new one of these locals.
    fn run(&mut self, length: u32, mut local: impl FnMut(&mut Self) -> LocalId) -> Span {
        let there = self.image.operands.len() as u32;
        let full = (there + length) as usize > MAX_OPERANDS;
        if full || (length <= there && self.rng.percent(self.shape.overlap)) {
            let start = self.rng.between((0, there - length));
            return Span::new(start, start + length);
        }
        let locals: Vec<LocalId> = (0..length).map(|_| local(self)).collect();
        self.image.run(&locals)
    }

    fn locals_of(&self, run: Span) -> &[LocalId] {
        &self.image.operands[run.start as usize..run.end as usize]
    }

    /// The inputs of all blocks, no local twice among those of one.
    fn inputs(&mut self) {
        let most = self.shape.arity.min(self.image.locals);
        let arities: Vec<u32> = (0..self.shape.arities).map(|_| self.rng.between((0, most))).collect();
        for _ in 0..self.rng.between(self.shape.blocks) {
            let arity = self.rng.pick(&arities);
            let run = self.run(arity, |builder| builder.rng.below(builder.image.locals));
            let mut locals = self.locals_of(run).to_vec();
            locals.sort_unstable();
            locals.dedup();
            let run = if locals.len() == arity as usize {
                run
            } else {
                let mut all: Vec<LocalId> = (0..self.image.locals).collect();
                self.rng.shuffle(&mut all);
                self.image.run(&all[..arity as usize])
            };
            self.inputs.push(run);
        }
    }

    fn blocks(&mut self) {
        for block in 0..self.inputs.len() as u32 {
            self.near = self.locals_of(self.inputs[block as usize]).to_vec();
            let first = self.image.operations.len() as u32;
            for _ in 0..self.rng.between(self.shape.operations) {
                self.operation();
            }
            let operations = self.image.operations_from(first);
            let (control, arity) = self.control(block);
            let arity = arity.unwrap_or_else(|| self.rng.between((0, self.shape.arity)).min(self.image.locals));
            let inputs = self.inputs[block as usize];
            let room = self.image.operands.len() + arity as usize <= MAX_OPERANDS;
            let outputs = if room && inputs.end - inputs.start == arity && self.rng.percent(self.shape.turning) {
                self.turned(inputs)
            } else {
                self.run(arity, Self::local)
            };
            self.image.blocks.push(Block { inputs, outputs, operations, control });
        }
        let all = self.image.operations.len() as u32;
        for block in 0..self.image.blocks.len() {
            if self.rng.percent(self.shape.overlap) {
                let (one, other) = (self.rng.between((0, all)), self.rng.between((0, all)));
                self.image.blocks[block].operations = Span::new(one.min(other), one.max(other));
            }
        }
    }

    /// A run of the same locals in another order.
    fn turned(&mut self, run: Span) -> Span {
        let mut locals = self.locals_of(run).to_vec();
        if self.rng.percent(50) {
            self.rng.shuffle(&mut locals);
        } else if !locals.is_empty() {
            locals.rotate_left(1);
        }
        self.image.run(&locals)
    }

    fn operation(&mut self) {
        let code = self.shape.codes.pick(self.rng);
        let mut count = |count| match count {
            Count::Exactly(count) => count,
            Count::Any => self.rng.below(4),
        };
        let (inputs, outputs) = code.operand_counts();
        let (inputs, outputs) = (count(inputs), count(outputs));
        if inputs + outputs > 0 && self.image.locals == 0 {
            self.image.operation(Code::Noop, &[], &[]);
            return;
        }
        let inputs = self.run(inputs, Self::local);
        let outputs = self.run(outputs, Self::output);
        self.near.extend_from_slice(&self.image.operands[outputs.start as usize..outputs.end as usize]);
        let extras = match code {
            Code::InternalCall | Code::InternalCallNever => [self.rng.below(self.functions), 0],
            Code::StaticAllocZeroed | Code::StaticAllocAnyBytes => {
                [self.rng.pick(&[0, 1, 32, 64, u32::MAX]), self.rng.pick(&[0, 1, 2, 3, u32::MAX - 1])]
            }
            _ => [0, 0],
        };
        self.image.operations.push(Operation { code: code.into(), inputs, outputs, extras });
    }

    fn arity(&self, block: BlockId) -> u32 {
        let run = self.inputs[block as usize];
        run.end - run.start
    }

    /// How a block ends, and the outputs that its successors ask for.
    fn control(&mut self, block: BlockId) -> (Control, Option<u32>) {
        let blocks = self.inputs.len() as u32;
        let kind = self.rng.weighted(&self.shape.controls);
        if kind == 0 {
            return (Control::LastOpTerminates, None);
        }
        if kind == 1 || (kind >= 3 && self.image.locals == 0) {
            return (Control::InternalReturn, None);
        }
        let flow = self.shape.flow;
        let first = match self.rng.weighted(&[flow.next, flow.back, flow.any]) {
            0 => (block + 1) % blocks,
            1 => self.rng.between((0, block)),
            _ => self.rng.below(blocks),
        };
        let arity = self.arity(first);
        let alike: Vec<BlockId> = (0..blocks).filter(|&other| self.arity(other) == arity).collect();
        let condition = self.local_or_0();
        let control = match kind {
            2 => Control::ContinuesTo(first),
            3 => {
                let other = self.rng.pick(&alike);
                let (non_zero, zero) = if self.rng.percent(50) { (first, other) } else { (other, first) };
                Control::Branches { condition, non_zero, zero }
            }
            _ => return self.switch(condition, first, &alike, arity),
        };
        (control, Some(arity))
    }

    fn local_or_0(&mut self) -> LocalId {
        if self.image.locals == 0 { 0 } else { self.local() }
    }

    fn switch(&mut self, condition: LocalId, first: BlockId, alike: &[BlockId], arity: u32) -> (Control, Option<u32>) {
        let there = self.image.targets.len();
        let count = self.rng.between((0, self.shape.targets)) as usize;
        let fallback = self.rng.percent(50).then(|| self.rng.pick(alike));
        let fits = |run: &[BlockId]| run.iter().all(|target| alike.contains(target));
        let room = there + count <= MAX_TARGETS;
        if count <= there && (!room || self.rng.percent(self.shape.overlap)) {
            let start = self.rng.between((0, (there - count) as u32));
            if fits(&self.image.targets[start as usize..start as usize + count]) {
                let control = Control::Switch { condition, first: start, count: count as u32, fallback };
                let successors = count > 0 || fallback.is_some();
                return (control, successors.then_some(arity));
            }
        }
        let count = if room { count } else { 0 };
        let targets: Vec<BlockId> = (0..count).map(|i| if i == 0 { first } else { self.rng.pick(alike) }).collect();
        let successors = count > 0 || fallback.is_some();
        (self.image.switch(condition, &targets, fallback), successors.then_some(arity))
    }

    fn functions(&mut self) {
        let blocks = self.image.blocks.len() as u32;
        for function in 0..self.functions {
            let apart = function * blocks / self.functions;
            let entry = if self.rng.percent(self.shape.sharing) { self.rng.below(blocks) } else { apart };
            self.image.function(entry);
        }
        if self.rng.percent(self.shape.sharing) {
            self.image.init = self.rng.below(self.functions);
        }
        self.image.main = self.rng.percent(50).then(|| self.rng.below(self.functions));
    }
}

/// Successors of a block.
fn successors(image: &Image, block: BlockId) -> Vec<BlockId> {
    match image.blocks[block as usize].control {
        Control::LastOpTerminates | Control::InternalReturn => Vec::new(),
        Control::ContinuesTo(target) => vec![target],
        Control::Branches { non_zero, zero, .. } => vec![zero, non_zero],
        Control::Switch { first, count, fallback, .. } => {
            let targets = &image.targets[first as usize..(first + count) as usize];
            targets.iter().copied().chain(fallback).collect()
        }
    }
}

/// The blocks that init and main lead to, by id.
pub fn visited(image: &Image) -> Vec<BlockId> {
    let mut seen = vec![false; image.blocks.len()];
    let mut called: Vec<u32> = image.main.into_iter().chain([image.init]).collect();
    let mut functions = vec![false; image.entries.len()];
    while let Some(function) = called.pop() {
        if std::mem::replace(&mut functions[function as usize], true) {
            continue;
        }
        let mut blocks = vec![image.entries[function as usize]];
        while let Some(block) = blocks.pop() {
            if std::mem::replace(&mut seen[block as usize], true) {
                continue;
            }
            blocks.extend(successors(image, block));
            let range = image.blocks[block as usize].operations;
            let calls = &image.operations[range.start as usize..range.end as usize];
            called.extend(calls.iter().filter(|op| op.code == 25 || op.code == 26).map(|op| op.extras[0]));
        }
    }
    (0..image.blocks.len() as u32).filter(|&block| seen[block as usize]).collect()
}

/// Turns allocations into operations that allocate nothing, until no two met in visited blocks share a base.
pub fn part_bases(image: &mut Image) {
    let mut based = vec![false; image.locals as usize];
    for block in visited(image) {
        let range = image.blocks[block as usize].operations;
        for index in range.start..range.end {
            let operation = &mut image.operations[index as usize];
            if group_of(Code::ALL[operation.code as usize]) != 0 {
                continue;
            }
            let base = image.operands[operation.outputs.start as usize] as usize;
            if std::mem::replace(&mut based[base], true) {
                let dynamic = operation.code == Code::DynamicAllocZeroed as u32
                    || operation.code == Code::DynamicAllocAnyBytes as u32;
                let code = if dynamic { Code::SetCopy } else { Code::AcquireFreePointer };
                *operation = Operation { code: code.into(), extras: [0, 0], ..*operation };
            }
        }
    }
}
