//! Open allocations and crossings: the operations that lie in intervals.
//!
//! An allocation stands here as its merged intervals, or as `None` where it is marked.

use crate::flow::Interval;
use crate::records::Records;

/// Whether an operation of a block lies in one of these intervals: start ≤ operation + 1 ≤ end, both ends counted.
fn lies_in(intervals: &[Interval], block: usize, operation: usize) -> bool {
    let at = operation as u32 + 1;
    intervals.iter().any(|&(of, start, end)| of as usize == block && start <= at && at <= end)
}

/// Whether an allocation is open at an operation of a block: it is unmarked, and has an interval over it.
pub fn is_open(allocation: Option<&[Interval]>, block: usize, operation: usize) -> bool {
    allocation.is_some_and(|intervals| lies_in(intervals, block, operation))
}

/// Whether two allocations cross, as three words: 1 or 0, block + 1, operation + 1.
///
/// A marked allocation crosses every allocation with no point named. Two others cross exactly where some operation lies in
/// intervals of both; the first such is named.
pub fn crossing(records: &Records, one: Option<&[Interval]>, other: Option<&[Interval]>) -> Vec<u32> {
    let (Some(one), Some(other)) = (one, other) else { return vec![1, 0, 0] };
    match first_common(records, one, other) {
        Some((block, operation)) => vec![1, block as u32 + 1, operation as u32 + 1],
        None => vec![0, 0, 0],
    }
}

/// The first operation that lies in intervals of both, by block id, then operation. Only operations of the block's range are
/// tried: the numbers of others, too, may lie between a block's start, 0, and its end, 4294967295.
fn first_common(records: &Records, one: &[Interval], other: &[Interval]) -> Option<(usize, usize)> {
    let in_both = |block, operation| lies_in(one, block, operation) && lies_in(other, block, operation);
    let mut blocks = records.blocks.iter().enumerate();
    blocks.find_map(|(block, record)| {
        let first = record.operations.clone().find(|&operation| in_both(block, operation));
        first.map(|operation| (block, operation))
    })
}

#[cfg(test)]
mod tests {
    use super::*;
    use crate::flow::BLOCK_END;
    use crate::records::Block;
    use std::ops::Range;

    /// Blocks of these operations.
    fn records(ranges: &[Range<usize>]) -> Records {
        let block = |operations: &Range<usize>| Block {
            inputs: Vec::new(),
            outputs: Vec::new(),
            operations: operations.clone(),
            returns: false,
            condition: None,
            successors: Vec::new(),
        };
        let blocks = ranges.iter().map(block).collect();
        Records { words: Vec::new(), init: 0, main: None, locals: 0, entries: vec![0], blocks, operations: Vec::new() }
    }

    #[test]
    fn ends_count() {
        let open = |operation| is_open(Some(&[(4, 1, 3), (5, 6, 6)]), 4, operation);
        assert_eq!([0, 1, 2, 3, 5].map(open), [true, true, true, false, false]);
        assert!(is_open(Some(&[(4, 0, BLOCK_END)]), 4, 7) && !is_open(Some(&[]), 4, 7) && !is_open(None, 4, 7));
    }

    #[test]
    fn first_by_block_then_operation() {
        let crosses = |one: &[Interval], other: &[Interval]| crossing(&records(&[0..5, 5..8]), Some(one), Some(other));
        assert_eq!(crosses(&[(0, 1, 3)], &[(0, 3, 5)]), [1, 1, 3]);
        assert_eq!(crosses(&[(0, 1, 2)], &[(0, 3, 5)]), [0, 0, 0]);
        assert_eq!(crosses(&[(0, 1, 3)], &[(1, 1, 3)]), [0, 0, 0]);
        assert_eq!(crosses(&[(0, 4, BLOCK_END), (1, 0, 6)], &[(0, 5, 5), (1, 0, 6)]), [1, 1, 5]);
        assert_eq!(crosses(&[(1, 0, 7)], &[(0, 2, 4), (1, 7, BLOCK_END)]), [1, 2, 7]);
    }

    /// The numbers of operations of other blocks do not count, below the block's range or above it.
    #[test]
    fn own_ranges() {
        let whole = [(0, 0, BLOCK_END), (1, 0, BLOCK_END)];
        let crosses = |ranges: &[Range<usize>]| crossing(&records(ranges), Some(&whole), Some(&whole));
        assert_eq!(crosses(&[3..3, 3..3]), [0, 0, 0]);
        assert_eq!(crosses(&[0..0, 2..4]), [1, 2, 3]);
        assert_eq!(crosses(&[4..5, 0..4]), [1, 1, 5]);
    }

    #[test]
    fn marked_ones_cross_all() {
        let crosses = |one, other| crossing(&records(&[0..2, 2..2]), one, other);
        let life: &[Interval] = &[(0, 1, 1)];
        for (one, other) in [(None, None), (None, Some(life)), (Some(life), None), (None, Some(&[][..]))] {
            assert_eq!(crosses(one, other), [1, 0, 0]);
        }
        assert_eq!((crosses(Some(&[]), Some(&[])), crosses(Some(&[]), Some(life))), (vec![0, 0, 0], vec![0, 0, 0]));
    }
}
