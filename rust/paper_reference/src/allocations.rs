//! Allocations: reach, marks, owners and merged intervals.

use crate::codes;
use crate::flow::{Interval, Order};
use crate::records::Records;
use std::collections::BTreeSet;

/// An allocation operation met in a visited block.
#[derive(Clone, Copy, Debug)]
pub struct Allocation {
    /// The block.
    pub block: usize,
    /// The operation.
    pub operation: usize,
    /// The local that it defines.
    pub base: usize,
}

/// The allocations, in the sequence of the order.
pub fn allocations(records: &Records, order: &Order) -> Vec<Allocation> {
    let mut allocations = Vec::new();
    for block in order.blocks() {
        for operation in records.blocks[block].operations.clone() {
            let record = &records.operations[operation];
            if codes::is_allocation(record.code) {
                allocations.push(Allocation { block, operation, base: record.outputs[0] });
            }
        }
    }
    allocations
}

/// Whether two allocations of visited blocks have the same base.
pub fn breaks_12(allocations: &[Allocation]) -> bool {
    let bases: BTreeSet<usize> = allocations.iter().map(|allocation| allocation.base).collect();
    bases.len() < allocations.len()
}

/// What the use lists say of pointers.
#[derive(Clone, Debug)]
pub struct Uses {
    /// By local: what one step of the reach adds for it.
    links: Vec<BTreeSet<usize>>,
    /// By local: whether it is used in an escaping operand.
    pub escaping: Vec<bool>,
    /// By local: whether it is an `InternalReturn` output.
    pub returned: Vec<bool>,
}

impl Uses {
    /// Those of an image. A use is one in a visited block.
    pub fn of(records: &Records, order: &Order) -> Uses {
        let [escaping, returned] = [(); 2].map(|()| vec![false; records.locals]);
        let mut uses = Uses { links: vec![BTreeSet::new(); records.locals], escaping, returned };
        for operation in order.operations(records) {
            for (position, &input) in operation.inputs.iter().enumerate() {
                if codes::derives(operation.code) {
                    uses.links[input].extend(&operation.outputs);
                }
                uses.escaping[input] |= codes::escapes(operation.code, position);
            }
        }
        for block in order.blocks() {
            let block = &records.blocks[block];
            for (position, &output) in block.outputs.iter().enumerate() {
                uses.returned[output] |= block.returns;
                uses.links[output].extend(block.successors.iter().map(|&next| records.blocks[next].inputs[position]));
            }
        }
        uses
    }

    /// The reach of a base.
    fn reach(&self, base: usize) -> BTreeSet<usize> {
        self.closure(base, |_| true)
    }

    /// What is linked from a base through locals that are let through.
    fn closure(&self, base: usize, let_through: impl Fn(usize) -> bool) -> BTreeSet<usize> {
        let mut reached = BTreeSet::from([base]);
        let mut open = vec![base];
        while let Some(local) = open.pop() {
            for &next in &self.links[local] {
                if let_through(next) && reached.insert(next) {
                    open.push(next);
                }
            }
        }
        reached
    }
}

/// The reaches of all allocations.
pub fn reaches(allocations: &[Allocation], uses: &Uses) -> Vec<BTreeSet<usize>> {
    allocations.iter().map(|allocation| uses.reach(allocation.base)).collect()
}

/// Whether something that the allocation reaches escapes, is returned, or is reached by another one as well.
pub fn marked(reaches: &[BTreeSet<usize>], uses: &Uses, allocation: usize) -> bool {
    let reached_by_another = |local: &usize| {
        let others = reaches.iter().enumerate().filter(|&(other, _)| other != allocation);
        others.into_iter().any(|(_, reach)| reach.contains(local))
    };
    let published = |local: usize| uses.escaping[local] || uses.returned[local];
    reaches[allocation].iter().any(|local| published(*local) || reached_by_another(local))
}

/// The locals at which each allocation is first.
///
/// Every base is had by its own allocation from the start. Then the allocations take their turns: each goes from its base to
/// whatever nobody had before its turn, and is first there; from a local that somebody had it does not go on.
pub fn firsts(allocations: &[Allocation], uses: &Uses) -> Vec<BTreeSet<usize>> {
    let mut had: BTreeSet<usize> = allocations.iter().map(|allocation| allocation.base).collect();
    let turn = |allocation: &Allocation| {
        let first = uses.closure(allocation.base, |local| !had.contains(&local));
        had.extend(&first);
        first
    };
    allocations.iter().map(turn).collect()
}

/// The owner of each local: allocation + 1, or 0.
///
/// First every base is its allocation's own. Then the allocations in turn go on from where they are first, and whatever they
/// link is theirs, also what another had.
pub fn owners(records: &Records, allocations: &[Allocation], uses: &Uses, firsts: &[BTreeSet<usize>]) -> Vec<u32> {
    let mut owners = vec![0; records.locals];
    for (number, allocation) in allocations.iter().enumerate() {
        owners[allocation.base] = number as u32 + 1;
    }
    for (number, first) in firsts.iter().enumerate() {
        for &local in first {
            uses.links[local].iter().for_each(|&linked| owners[linked] = number as u32 + 1);
        }
    }
    owners
}

/// The intervals in ascending order, with each run of those that touch or overlap in a block made one.
pub fn merged(mut intervals: Vec<Interval>) -> Vec<Interval> {
    intervals.sort_unstable();
    let mut merged: Vec<Interval> = Vec::new();
    for (block, start, end) in intervals {
        match merged.last_mut() {
            Some(last) if last.0 == block && start <= last.2 => last.2 = last.2.max(end),
            _ => merged.push((block, start, end)),
        }
    }
    merged
}

#[cfg(test)]
mod tests {
    use super::*;

    /// The paper's examples.
    #[test]
    fn joins() {
        assert_eq!(merged(vec![(0, 1, 3), (0, 3, 5)]), [(0, 1, 5)]);
        assert_eq!(merged(vec![(0, 4, 5), (0, 1, 3)]), [(0, 1, 3), (0, 4, 5)]);
        assert_eq!(merged(vec![(0, 1, 3), (1, 1, 3)]), [(0, 1, 3), (1, 1, 3)]);
        assert_eq!(merged(vec![(0, 1, 9), (0, 2, 3), (0, 5, 6)]), [(0, 1, 9)]);
    }
}
