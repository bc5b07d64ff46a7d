//! Order, predecessors, uses, liveness and intervals.

use crate::codes;
use crate::records::{Block, Operation, Records};
use std::collections::BTreeSet;

/// The order: functions, and the blocks of each.
#[derive(Clone, Debug, Default)]
pub struct Order {
    /// Each function of the order with its blocks.
    pub functions: Vec<(usize, Vec<usize>)>,
}

impl Order {
    /// The visit: from init, then from main; a block goes into what it calls first, and then to its successors.
    pub fn of(records: &Records) -> Order {
        let mut walk = Walk {
            records,
            functions: vec![false; records.entries.len()],
            blocks: vec![false; records.blocks.len()],
            left: Vec::new(),
        };
        walk.function(records.init);
        if let Some(main) = records.main {
            walk.function(main);
        }
        // What was left last stands first, functions as well as the blocks of each.
        let mut order = Order::default();
        for &left in walk.left.iter().rev() {
            if let Left::Function(function) = left {
                let blocks = walk.left.iter().rev().filter_map(|&other| match other {
                    Left::Block(of, block) if of == function => Some(block),
                    _ => None,
                });
                order.functions.push((function, blocks.collect()));
            }
        }
        order
    }

    /// The blocks of all functions, in turn.
    pub fn blocks(&self) -> impl DoubleEndedIterator<Item = usize> {
        self.functions.iter().flat_map(|(_, blocks)| blocks.iter().copied())
    }

    /// The operations of all these blocks, each once.
    pub fn operations<'a>(&self, records: &'a Records) -> impl Iterator<Item = &'a Operation> {
        let covered: BTreeSet<usize> =
            self.blocks().flat_map(|block| records.blocks[block].operations.clone()).collect();
        covered.into_iter().map(|operation| &records.operations[operation])
    }
}

/// A function, or a block in the walk of a function, that has been left for good.
#[derive(Clone, Copy)]
enum Left {
    Function(usize),
    Block(usize, usize),
}

struct Walk<'a> {
    records: &'a Records,
    functions: Vec<bool>,
    blocks: Vec<bool>,
    left: Vec<Left>,
}

impl Walk<'_> {
    fn function(&mut self, function: usize) {
        if !self.functions[function] {
            self.functions[function] = true;
            self.block(function, self.records.entries[function]);
            self.left.push(Left::Function(function));
        }
    }

    fn block(&mut self, function: usize, block: usize) {
        if self.blocks[block] {
            return;
        }
        self.blocks[block] = true;
        let record = &self.records.blocks[block];
        for operation in &self.records.operations[record.operations.clone()] {
            if codes::is_call(operation.code) {
                self.function(operation.extras[0] as usize);
            }
        }
        for &next in &record.successors {
            self.block(function, next);
        }
        self.left.push(Left::Block(function, block));
    }
}

/// The predecessors of every block, from the successors of each visited block in ascending order.
pub fn predecessors(records: &Records, order: &Order) -> Vec<Vec<usize>> {
    let mut visited: Vec<usize> = order.blocks().collect();
    visited.sort_unstable();
    let mut predecessors = vec![Vec::new(); records.blocks.len()];
    for block in visited {
        for &next in &records.blocks[block].successors {
            predecessors[next].push(block);
        }
    }
    predecessors
}

/// The uses of a local as words: block, kind, place.
pub fn uses(records: &Records, order: &Order, local: usize) -> Vec<u32> {
    let times = |operation: usize| {
        let inputs = &records.operations[operation].inputs;
        inputs.iter().filter(|&&input| input == local).count()
    };
    let times: Vec<usize> = (0..records.operations.len()).map(times).collect();
    let mut words = Vec::new();
    for id in order.blocks() {
        let block = &records.blocks[id];
        let mut use_at = |kind: u32, place: usize| words.extend([id as u32, kind, place as u32]);
        for operation in block.operations.clone() {
            (0..times[operation]).for_each(|_| use_at(0, operation));
        }
        if block.condition == Some(local) {
            use_at(1, 0);
        }
        for (position, &output) in block.outputs.iter().enumerate() {
            if output == local {
                use_at(2, position);
            }
        }
    }
    words
}

/// Which locals each operation reads, and which it defines.
#[derive(Clone, Debug)]
pub struct Operands {
    /// By operation, by local.
    pub reads: Vec<Vec<bool>>,
    /// By operation, by local.
    pub defines: Vec<Vec<bool>>,
}

impl Operands {
    /// Those of an image.
    pub fn of(records: &Records) -> Operands {
        let table = |operands: fn(&crate::records::Operation) -> &Vec<usize>| {
            let row = |operation| set(records.locals, operands(operation));
            records.operations.iter().map(row).collect()
        };
        Operands { reads: table(|operation| &operation.inputs), defines: table(|operation| &operation.outputs) }
    }
}

/// A set of locals.
fn set(locals: usize, members: &[usize]) -> Vec<bool> {
    let mut set = vec![false; locals];
    members.iter().for_each(|&member| set[member] = true);
    set
}

/// The sets of every block, and the passes that they took.
#[derive(Clone, Debug)]
pub struct Liveness {
    /// Entry sets, by block, by local.
    pub entry: Vec<Vec<bool>>,
    /// Exit sets, by block, by local.
    pub exit: Vec<Vec<bool>>,
    /// The passes, the one that added nothing included.
    pub rounds: u32,
}

impl Liveness {
    /// Passes from empty sets on: each goes through the order from its end, and gives a block's entry set to the exits of its
    /// predecessors at once.
    pub fn of(records: &Records, order: &Order, operands: &Operands) -> Liveness {
        let mut predecessors = predecessors(records, order);
        // Adding a set to an exit a second time adds nothing, whether for a repeated predecessor or in a later pass.
        predecessors.iter_mut().for_each(Vec::dedup);
        let empty = vec![vec![false; records.locals]; records.blocks.len()];
        let mut live = Liveness { entry: empty.clone(), exit: empty, rounds: 0 };
        let positions: Vec<Vec<Option<usize>>> = records.blocks.iter().map(|block| positions(records, block)).collect();
        loop {
            let mut added = false;
            for block in order.blocks().rev() {
                let entry = entry_set(&records.blocks[block], operands, &live.exit[block]);
                if live.rounds > 0 && live.entry[block] == entry {
                    continue;
                }
                live.entry[block] = entry;
                for &before in &predecessors[block] {
                    for local in (0..records.locals).filter(|&local| live.entry[block][local]) {
                        // An input becomes the output at its position; other names pass.
                        let name = match positions[block][local] {
                            Some(position) => records.blocks[before].outputs[position],
                            None => local,
                        };
                        added |= !live.exit[before][name];
                        live.exit[before][name] = true;
                    }
                }
            }
            live.rounds += 1;
            if !added {
                return live;
            }
        }
    }
}

/// The position of each local among a block's inputs.
fn positions(records: &Records, block: &Block) -> Vec<Option<usize>> {
    (0..records.locals).map(|local| block.inputs.iter().position(|&input| input == local)).collect()
}

/// Locals that are read after the operations of a block: a condition, or the outputs of an `InternalReturn` block.
fn read_at_end(block: &Block) -> Vec<usize> {
    let returned = if block.returns { block.outputs.clone() } else { Vec::new() };
    block.condition.into_iter().chain(returned).collect()
}

/// What is live before a block: from its exit set, what its end reads, and its operations from the last to the first, each of
/// which ends what it defines and then begins what it reads.
fn entry_set(block: &Block, operands: &Operands, exit: &[bool]) -> Vec<bool> {
    let mut live = exit.to_vec();
    read_at_end(block).into_iter().for_each(|local| live[local] = true);
    for operation in block.operations.clone().rev() {
        for (local, live) in live.iter_mut().enumerate() {
            *live = operands.reads[operation][local] || (*live && !operands.defines[operation][local]);
        }
    }
    live
}

/// An interval: block, start (0 block start, else operation + 1), end (operation + 1, or [`BLOCK_END`]).
pub type Interval = (u32, u32, u32);

/// The end of a block.
pub const BLOCK_END: u32 = u32::MAX;

/// The intervals of a local, block by block as the order has them; in a block the last definition comes first, and the
/// block's start at the end.
pub fn intervals(
    records: &Records,
    order: &Order,
    operands: &Operands,
    live: &Liveness,
    local: usize,
) -> Vec<Interval> {
    let mut intervals = Vec::new();
    for id in order.blocks() {
        let block = &records.blocks[id];
        let to_the_end = live.exit[id][local] || read_at_end(block).contains(&local);
        let mut end = to_the_end.then_some(BLOCK_END);
        for operation in block.operations.clone().rev() {
            let at = operation as u32 + 1;
            if operands.defines[operation][local] {
                intervals.extend(end.take().map(|end| (id as u32, at, end)));
            }
            if operands.reads[operation][local] {
                end = end.or(Some(at));
            }
        }
        intervals.extend(end.map(|end| (id as u32, 0, end)));
    }
    intervals
}
