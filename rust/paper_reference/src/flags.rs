//! What marked an allocation: three flags, added up.

use crate::allocations::Uses;
use std::collections::BTreeSet;

/// A local at which the allocation is first is used in an escaping operand.
const ESCAPING_OPERAND: u32 = 1;
/// Such a local is an `InternalReturn` output.
const RETURN: u32 = 2;
/// The reach overlaps that of another allocation.
const MEETING: u32 = 4;

/// The flags of each allocation, from the locals that it reaches and those at which it is first.
pub fn flags(reaches: &[BTreeSet<usize>], firsts: &[BTreeSet<usize>], uses: &Uses) -> Vec<u32> {
    let mut reached = vec![0; uses.escaping.len()];
    reaches.iter().flatten().for_each(|&local| reached[local] += 1);
    let of = |(reach, first): (&BTreeSet<usize>, &BTreeSet<usize>)| {
        let sum = [
            (ESCAPING_OPERAND, first.iter().any(|&local| uses.escaping[local])),
            (RETURN, first.iter().any(|&local| uses.returned[local])),
            (MEETING, reach.iter().any(|&local| reached[local] > 1)),
        ];
        sum.into_iter().map(|(flag, is_set)| if is_set { flag } else { 0 }).sum()
    };
    reaches.iter().zip(firsts).map(of).collect()
}

/// The locals that each allocation reaches and no allocation of a lower number does.
pub fn lowest(reaches: &[BTreeSet<usize>]) -> Vec<BTreeSet<usize>> {
    let mut below = BTreeSet::new();
    let own = |reach: &BTreeSet<usize>| {
        let own = reach.difference(&below).copied().collect();
        below.extend(reach);
        own
    };
    reaches.iter().map(own).collect()
}
