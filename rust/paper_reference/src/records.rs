//! The records of an image: refusals 4 to 11, in the sequence in which they are asked.

use crate::codes;
use std::collections::HashSet;
use std::ops::Range;

/// An image as records, which no rule before 12 refuses.
#[derive(Clone, Debug)]
pub struct Records {
    /// The payload words without padding.
    pub words: Vec<u32>,
    /// The init function.
    pub init: usize,
    /// The main function, if any.
    pub main: Option<usize>,
    /// The number of locals.
    pub locals: usize,
    /// The entry block of each function.
    pub entries: Vec<usize>,
    /// The blocks.
    pub blocks: Vec<Block>,
    /// The operations.
    pub operations: Vec<Operation>,
}

/// A block.
#[derive(Clone, Debug)]
pub struct Block {
    /// Its inputs.
    pub inputs: Vec<usize>,
    /// Its outputs.
    pub outputs: Vec<usize>,
    /// Its operations.
    pub operations: Range<usize>,
    /// Whether it is an `InternalReturn` block.
    pub returns: bool,
    /// Its branch or switch condition, if any.
    pub condition: Option<usize>,
    /// Its successors, in turn.
    pub successors: Vec<usize>,
}

/// An operation.
#[derive(Clone, Debug)]
pub struct Operation {
    /// Its code.
    pub code: u32,
    /// Its inputs.
    pub inputs: Vec<usize>,
    /// Its outputs.
    pub outputs: Vec<usize>,
    /// Its two extras.
    pub extras: [u32; 2],
}

/// The counts at the front of the payload.
struct Counts {
    functions: u64,
    blocks: u64,
    operations: u64,
    operands: u64,
    targets: u64,
    locals: u64,
}

/// The parts of the payload after the counts.
struct Parts<'a> {
    words: &'a [u32],
    counts: Counts,
    init: u32,
    main: u32,
    entries: &'a [u32],
    blocks: Vec<&'a [u32]>,
    operations: Vec<&'a [u32]>,
    operands: &'a [u32],
    targets: &'a [u32],
}

/// The number of a rule, and whether an image breaks it.
type Rule = (u32, fn(&Parts) -> bool);

/// The rules that are asked of all records, in sequence.
const RULES: &[Rule] = &[(7, breaks_7), (8, breaks_8), (9, breaks_9), (10, breaks_10), (11, breaks_11)];

/// Whether words are as many as they are to be where the counts call for so many; what else rule 6 asks of them.
pub type Fit = fn(words: &[u32], needed: usize) -> bool;

/// The records in these payload words, of which there are at least 9, or the number of the first rule of the sequence that
/// refuses them.
pub fn records(words: &[u32], fit: Fit) -> Result<Records, u32> {
    let parts = parts(words, fit)?;
    if let Some((number, _)) = RULES.iter().find(|(_, breaks)| breaks(&parts)) {
        return Err(*number);
    }
    Ok(Records {
        words: parts.words.to_vec(),
        init: parts.init as usize,
        main: (parts.main as usize).checked_sub(1),
        locals: parts.counts.locals as usize,
        entries: parts.entries.iter().map(|&entry| entry as usize).collect(),
        blocks: parts.blocks.iter().map(|block| parts.block(block)).collect(),
        operations: parts.operations.iter().map(|operation| parts.operation(operation)).collect(),
    })
}

/// Rules 4 and 5.
fn counts(words: &[u32]) -> Result<Counts, u32> {
    if words[0] != 1 {
        return Err(4);
    }
    let count = |i: usize| u64::from(words[i]);
    let counts = Counts {
        functions: count(1),
        blocks: count(2),
        operations: count(3),
        operands: count(4),
        targets: count(5),
        locals: count(6),
    };
    let above = counts.functions > 64
        || counts.blocks > 256
        || counts.operations > 1024
        || counts.operands > 4096
        || counts.targets > 512
        || counts.locals > 512;
    if above || counts.functions == 0 || counts.blocks == 0 {
        return Err(5);
    }
    Ok(counts)
}

/// Rules 4 to 6.
fn parts(words: &[u32], fit: Fit) -> Result<Parts<'_>, u32> {
    let counts = counts(words)?;
    let needed = 9 + counts.functions + 11 * counts.blocks + 7 * counts.operations + counts.operands + counts.targets;
    let needed = needed as usize;
    if !fit(words, needed) {
        return Err(6);
    }
    let words = &words[..needed];
    let (entries, rest) = words[9..].split_at(counts.functions as usize);
    let (blocks, rest) = rest.split_at(11 * counts.blocks as usize);
    let (operations, rest) = rest.split_at(7 * counts.operations as usize);
    let (operands, targets) = rest.split_at(counts.operands as usize);
    Ok(Parts {
        words,
        counts,
        init: words[7],
        main: words[8],
        entries,
        blocks: blocks.chunks(11).collect(),
        operations: operations.chunks(7).collect(),
        operands,
        targets,
    })
}

/// An operation code or control kind unknown, or an unused field not zero.
fn breaks_7(parts: &Parts) -> bool {
    let bad_block = |block: &&[u32]| {
        let used = match block[6] {
            0 | 1 => 0,
            2 => 1,
            3 => 3,
            4 => 4,
            _ => return true,
        };
        block[7 + used..].iter().any(|&field| field != 0)
    };
    let bad_operation = |operation: &&[u32]| {
        let code = operation[0];
        let used = match code {
            _ if codes::is_call(code) => 1,
            _ if codes::is_static_allocation(code) => 2,
            0..=92 => 0,
            _ => return true,
        };
        operation[5 + used..].iter().any(|&extra| extra != 0)
    };
    parts.blocks.iter().any(bad_block) || parts.operations.iter().any(bad_operation)
}

/// A range that is none, an id not below its count, or a static id that is too large.
fn breaks_8(parts: &Parts) -> bool {
    let Counts { functions, blocks, operations, operands, targets, locals } = parts.counts;
    let no_range = |start: u32, end: u32, count: u64| start > end || u64::from(end) > count;
    let no_id = |id: u32, count: u64| u64::from(id) >= count;
    // An id + 1, or 0.
    let no_option = |id: u32, count: u64| u64::from(id) > count;
    let bad_block = |block: &&[u32]| {
        let bad_control = match block[6] {
            0 | 1 => false,
            2 => no_id(block[7], blocks),
            3 => no_id(block[7], locals) || no_id(block[8], blocks) || no_id(block[9], blocks),
            _ => {
                no_id(block[7], locals)
                    || u64::from(block[8]) + u64::from(block[9]) > targets
                    || no_option(block[10], blocks)
            }
        };
        no_range(block[0], block[1], operands)
            || no_range(block[2], block[3], operands)
            || no_range(block[4], block[5], operations)
            || bad_control
    };
    let bad_operation = |operation: &&[u32]| {
        no_range(operation[1], operation[2], operands)
            || no_range(operation[3], operation[4], operands)
            || (codes::is_call(operation[0]) && no_id(operation[5], functions))
            || (codes::is_static_allocation(operation[0]) && operation[6] == u32::MAX)
    };
    no_id(parts.init, functions)
        || no_option(parts.main, functions)
        || parts.entries.iter().any(|&entry| no_id(entry, blocks))
        || parts.blocks.iter().any(bad_block)
        || parts.operations.iter().any(bad_operation)
        || parts.operands.iter().any(|&local| no_id(local, locals))
        || parts.targets.iter().any(|&target| no_id(target, blocks))
}

/// Operand counts wrong for the code.
fn breaks_9(parts: &Parts) -> bool {
    let wrong = |operation: &&[u32]| {
        let (inputs, outputs) = (operation[2] - operation[1], operation[4] - operation[3]);
        !codes::counts_fit(operation[0], inputs, outputs)
    };
    parts.operations.iter().any(wrong)
}

/// A block with successors whose output count differs from some successor's input count.
fn breaks_10(parts: &Parts) -> bool {
    let differs = |block: &&[u32]| {
        let block = parts.block(block);
        block.successors.iter().any(|&next| parts.block(parts.blocks[next]).inputs.len() != block.outputs.len())
    };
    parts.blocks.iter().any(differs)
}

/// One local twice among a block's inputs.
fn breaks_11(parts: &Parts) -> bool {
    let twice = |block: &&[u32]| {
        let mut met = HashSet::new();
        !parts.block(block).inputs.into_iter().all(|input| met.insert(input))
    };
    parts.blocks.iter().any(twice)
}

impl Parts<'_> {
    fn run(&self, start: u32, end: u32) -> Vec<usize> {
        self.operands[start as usize..end as usize].iter().map(|&local| local as usize).collect()
    }

    fn block(&self, words: &[u32]) -> Block {
        let field = |i: usize| words[7 + i] as usize;
        let successors = match words[6] {
            2 => vec![field(0)],
            // Zero target, then non-zero.
            3 => vec![field(2), field(1)],
            4 => {
                let targets = self.targets[field(1)..field(1) + field(2)].iter().map(|&target| target as usize);
                targets.chain(field(3).checked_sub(1)).collect()
            }
            _ => Vec::new(),
        };
        Block {
            inputs: self.run(words[0], words[1]),
            outputs: self.run(words[2], words[3]),
            operations: words[4] as usize..words[5] as usize,
            returns: words[6] == 1,
            condition: (words[6] >= 3).then(|| field(0)),
            successors,
        }
    }

    fn operation(&self, words: &[u32]) -> Operation {
        Operation {
            code: words[0],
            inputs: self.run(words[1], words[2]),
            outputs: self.run(words[3], words[4]),
            extras: [words[5], words[6]],
        }
    }
}
