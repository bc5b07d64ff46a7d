//! Builds images of the intermediate form: records in, payload words or pages out.
//!
//! Nothing here looks for broken rules: an image that breaks them is as easy to build as one that keeps them, and the
//! functions of [`pages`] damage what an [`Image`] cannot express. The counts of an image are the lengths of its lists.
//!
//! ```
//! use sir_image::{Code, Control, Image};
//!
//! let mut image = Image::new(2);
//! let first = image.operation(Code::SetSmallConst, &[], &[0]);
//! image.operation(Code::SetCopy, &[0], &[1]);
//! let body = image.operations_from(first);
//! let entry = image.block(&[], &[1], body, Control::InternalReturn);
//! image.function(entry);
//! assert_eq!(image.pages().len(), 512);
//! ```

mod code;
pub mod pages;
mod read;
pub mod samples;

pub use code::{Code, Count};

/// Number of a function.
pub type FunctionId = u32;
/// Number of a block.
pub type BlockId = u32;
/// Number of an operation.
pub type OpIdx = u32;
/// Number of a local.
pub type LocalId = u32;

/// The edition that [`Image::words`] writes.
pub const EDITION: u32 = 1;
/// Limit of the functions of an image.
pub const MAX_FUNCTIONS: usize = 64;
/// Limit of its blocks.
pub const MAX_BLOCKS: usize = 256;
/// Limit of its operations.
pub const MAX_OPERATIONS: usize = 1024;
/// Limit of its operand words.
pub const MAX_OPERANDS: usize = 4096;
/// Limit of its case targets.
pub const MAX_TARGETS: usize = 512;
/// Limit of its locals.
pub const MAX_LOCALS: u32 = 512;

/// Words before the entry blocks.
pub const HEADER_WORDS: usize = 9;
/// Words of a block.
pub const BLOCK_WORDS: usize = 11;
/// Words of an operation.
pub const OPERATION_WORDS: usize = 7;

/// A range of operand words or of operations: the first, and the one after the last.
#[derive(Clone, Copy, Debug, Default, PartialEq, Eq)]
pub struct Span {
    /// The first.
    pub start: u32,
    /// The one after the last.
    pub end: u32,
}

impl Span {
    /// The empty range at 0.
    pub const EMPTY: Span = Span { start: 0, end: 0 };

    /// From `start` up to and without `end`.
    pub const fn new(start: u32, end: u32) -> Span {
        Span { start, end }
    }
}

/// How a block ends.
#[derive(Clone, Copy, Debug, PartialEq, Eq)]
pub enum Control {
    /// Kind 0: the last operation ends it.
    LastOpTerminates,
    /// Kind 1: its outputs are returned to the caller of the function.
    InternalReturn,
    /// Kind 2: on to one block.
    ContinuesTo(BlockId),
    /// Kind 3: on to one of two.
    Branches {
        /// What decides.
        condition: LocalId,
        /// Where it goes unless the condition is zero.
        non_zero: BlockId,
        /// Where it goes if the condition is zero.
        zero: BlockId,
    },
    /// Kind 4: on to one of a run of case targets, or to the fallback.
    Switch {
        /// What decides.
        condition: LocalId,
        /// Index of its first case target.
        first: u32,
        /// Number of its case targets.
        count: u32,
        /// Where it goes if no case fits.
        fallback: Option<BlockId>,
    },
}

impl Control {
    /// The five words: kind and fields, unused ones zero.
    pub fn words(self) -> [u32; 5] {
        match self {
            Control::LastOpTerminates => [0; 5],
            Control::InternalReturn => [1, 0, 0, 0, 0],
            Control::ContinuesTo(target) => [2, target, 0, 0, 0],
            Control::Branches { condition, non_zero, zero } => [3, condition, non_zero, zero, 0],
            Control::Switch { condition, first, count, fallback } => [4, condition, first, count, plus_one(fallback)],
        }
    }
}

/// The record of a block.
#[derive(Clone, Copy, Debug, PartialEq, Eq)]
pub struct Block {
    /// Its inputs, among the operand words.
    pub inputs: Span,
    /// Its outputs, among the operand words.
    pub outputs: Span,
    /// Its operations.
    pub operations: Span,
    /// How it ends.
    pub control: Control,
}

impl Block {
    /// The eleven words.
    pub fn words(&self) -> [u32; BLOCK_WORDS] {
        let [kind, a, b, c, d] = self.control.words();
        [
            self.inputs.start,
            self.inputs.end,
            self.outputs.start,
            self.outputs.end,
            self.operations.start,
            self.operations.end,
            kind,
            a,
            b,
            c,
            d,
        ]
    }
}

/// The record of an operation.
#[derive(Clone, Copy, Debug, PartialEq, Eq)]
pub struct Operation {
    /// Its code: that of a [`Code`], unless the image is to be refused.
    pub code: u32,
    /// Its inputs, among the operand words.
    pub inputs: Span,
    /// Its outputs, among the operand words.
    pub outputs: Span,
    /// Callee and 0 of a call, size and id of a static allocation, otherwise zeros.
    pub extras: [u32; 2],
}

impl Operation {
    /// The seven words.
    pub fn words(&self) -> [u32; OPERATION_WORDS] {
        [
            self.code,
            self.inputs.start,
            self.inputs.end,
            self.outputs.start,
            self.outputs.end,
            self.extras[0],
            self.extras[1],
        ]
    }
}

/// An image as records.
#[derive(Clone, Debug, Default, PartialEq, Eq)]
pub struct Image {
    /// The entry block of each function.
    pub entries: Vec<BlockId>,
    /// The blocks.
    pub blocks: Vec<Block>,
    /// The operations.
    pub operations: Vec<Operation>,
    /// The operand words, of which the ranges of blocks and operations speak.
    pub operands: Vec<LocalId>,
    /// The case targets, of which the switches speak.
    pub targets: Vec<BlockId>,
    /// The number of locals.
    pub locals: u32,
    /// The init function.
    pub init: FunctionId,
    /// The main function, if any.
    pub main: Option<FunctionId>,
}

impl Image {
    /// An image of so many locals and nothing else; its init function is to be function 0.
    pub fn new(locals: u32) -> Image {
        Image { locals, ..Image::default() }
    }

    /// Adds a function.
    pub fn function(&mut self, entry: BlockId) -> FunctionId {
        self.entries.push(entry);
        self.entries.len() as FunctionId - 1
    }

    /// Adds operand words, and gives their range.
    pub fn run(&mut self, locals: &[LocalId]) -> Span {
        let start = self.operands.len() as u32;
        self.operands.extend_from_slice(locals);
        Span::new(start, self.operands.len() as u32)
    }

    /// Adds an operation without extras, and its operands to the operand words.
    pub fn operation(&mut self, code: impl Into<u32>, inputs: &[LocalId], outputs: &[LocalId]) -> OpIdx {
        self.operation_with(code, inputs, outputs, [0, 0])
    }

    /// Adds an operation with extras, and its operands to the operand words.
    pub fn operation_with(
        &mut self,
        code: impl Into<u32>,
        inputs: &[LocalId],
        outputs: &[LocalId],
        extras: [u32; 2],
    ) -> OpIdx {
        let operation = Operation { code: code.into(), inputs: self.run(inputs), outputs: self.run(outputs), extras };
        self.operations.push(operation);
        self.operations.len() as OpIdx - 1
    }

    /// The range of the operations from `start` on that have been added so far.
    pub fn operations_from(&self, start: OpIdx) -> Span {
        Span::new(start, self.operations.len() as u32)
    }

    /// Adds a block of these operations, and its inputs and outputs to the operand words.
    pub fn block(&mut self, inputs: &[LocalId], outputs: &[LocalId], operations: Span, control: Control) -> BlockId {
        let block = Block { inputs: self.run(inputs), outputs: self.run(outputs), operations, control };
        self.blocks.push(block);
        self.blocks.len() as BlockId - 1
    }

    /// A switch whose targets are added to the case targets.
    pub fn switch(&mut self, condition: LocalId, targets: &[BlockId], fallback: Option<BlockId>) -> Control {
        let first = self.targets.len() as u32;
        self.targets.extend_from_slice(targets);
        Control::Switch { condition, first, count: targets.len() as u32, fallback }
    }

    /// The place of a function's entry block among the payload words.
    pub fn entry_at(&self, function: usize) -> usize {
        HEADER_WORDS + function
    }

    /// The place of a block's first word among the payload words.
    pub fn block_at(&self, block: usize) -> usize {
        self.entry_at(self.entries.len()) + BLOCK_WORDS * block
    }

    /// The place of an operation's first word among the payload words.
    pub fn operation_at(&self, operation: usize) -> usize {
        self.block_at(self.blocks.len()) + OPERATION_WORDS * operation
    }

    /// The place of an operand word among the payload words.
    pub fn operand_at(&self, operand: usize) -> usize {
        self.operation_at(self.operations.len()) + operand
    }

    /// The place of a case target among the payload words.
    pub fn target_at(&self, target: usize) -> usize {
        self.operand_at(self.operands.len()) + target
    }

    /// The number of payload words, padding left out.
    pub fn word_count(&self) -> usize {
        self.target_at(self.targets.len())
    }

    /// The payload words, without padding.
    pub fn words(&self) -> Vec<u32> {
        let mut words = Vec::with_capacity(self.word_count());
        words.extend([
            EDITION,
            self.entries.len() as u32,
            self.blocks.len() as u32,
            self.operations.len() as u32,
            self.operands.len() as u32,
            self.targets.len() as u32,
            self.locals,
            self.init,
            plus_one(self.main),
        ]);
        words.extend_from_slice(&self.entries);
        words.extend(self.blocks.iter().flat_map(Block::words));
        words.extend(self.operations.iter().flat_map(Operation::words));
        words.extend_from_slice(&self.operands);
        words.extend_from_slice(&self.targets);
        words
    }

    /// The image: the least number of pages that hold its words.
    pub fn pages(&self) -> Vec<u8> {
        pages::from_words(&self.words())
    }
}

/// An optional id as a word: the id + 1, or 0.
fn plus_one(id: Option<u32>) -> u32 {
    id.map_or(0, |id| id.checked_add(1).expect("an id below 4294967295"))
}

#[cfg(test)]
mod tests {
    use super::*;

    #[test]
    fn controls_as_words() {
        assert_eq!(Control::LastOpTerminates.words(), [0, 0, 0, 0, 0]);
        assert_eq!(Control::InternalReturn.words(), [1, 0, 0, 0, 0]);
        assert_eq!(Control::ContinuesTo(7).words(), [2, 7, 0, 0, 0]);
        let branch = Control::Branches { condition: 4, non_zero: 5, zero: 6 };
        assert_eq!(branch.words(), [3, 4, 5, 6, 0]);
        let switch = |fallback| Control::Switch { condition: 4, first: 5, count: 6, fallback };
        assert_eq!(switch(Some(7)).words(), [4, 4, 5, 6, 8]);
        assert_eq!(switch(None).words(), [4, 4, 5, 6, 0]);
    }

    #[test]
    fn records_stand_in_turn() {
        let mut image = Image::new(40);
        let call = image.operation_with(Code::InternalCall, &[30, 31], &[32], [1, 0]);
        let body = image.operations_from(call);
        let switch = image.switch(33, &[1, 0], Some(1));
        image.block(&[34], &[35, 36], body, switch);
        image.block(&[], &[], Span::EMPTY, Control::LastOpTerminates);
        image.function(0);
        image.function(1);
        image.main = Some(1);
        let words = image.words();
        assert_eq!(words.len(), image.word_count());
        assert_eq!(words[..HEADER_WORDS], [1, 2, 2, 1, 6, 2, 40, 0, 2]);
        assert_eq!(words[image.entry_at(0)..image.block_at(0)], [0, 1]);
        assert_eq!(words[image.block_at(0)..image.block_at(1)], [3, 4, 4, 6, 0, 1, 4, 33, 0, 2, 2]);
        assert_eq!(words[image.block_at(1)..image.operation_at(0)], [6, 6, 6, 6, 0, 0, 0, 0, 0, 0, 0]);
        assert_eq!(words[image.operation_at(0)..image.operand_at(0)], [25, 0, 2, 2, 3, 1, 0]);
        assert_eq!(words[image.operand_at(0)..image.target_at(0)], [30, 31, 32, 34, 35, 36]);
        assert_eq!(words[image.target_at(0)..], [1, 0]);
    }

    #[test]
    #[should_panic(expected = "an id below 4294967295")]
    fn an_optional_id_does_not_wrap() {
        plus_one(Some(u32::MAX));
    }
}
