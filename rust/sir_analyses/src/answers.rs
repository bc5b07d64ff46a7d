//! Answers, decoded.

use sir_questions::{AllocId, BlockId, Flags, FunctionId, Id, LocalId, MarkCause, OpIdx};

/// A function of the order and its blocks.
#[derive(Clone, Debug, PartialEq, Eq)]
pub struct FunctionBlocks {
    /// The function.
    pub function: FunctionId,
    /// Its blocks, in order; none where the entry had been visited before.
    pub blocks: Vec<BlockId>,
}

/// A use of a local.
#[derive(Clone, Copy, Debug, PartialEq, Eq)]
pub struct Use {
    /// The block.
    pub block: BlockId,
    /// Where in the block.
    pub place: Place,
}

/// Where in a block a local is used.
#[derive(Clone, Copy, Debug, PartialEq, Eq)]
pub enum Place {
    /// As an input of this operation.
    Operation(OpIdx),
    /// As the condition of a branch or switch.
    Control,
    /// As the output at this position.
    BlockOutput(u32),
}

/// A stretch of a block, both ends counted.
#[derive(Clone, Copy, Debug, PartialEq, Eq)]
pub struct Interval {
    /// The block.
    pub block: BlockId,
    /// Where it starts.
    pub start: Start,
    /// Where it ends.
    pub end: End,
}

/// Where an interval starts.
#[derive(Clone, Copy, Debug, PartialEq, Eq, PartialOrd, Ord)]
pub enum Start {
    /// At the start of the block.
    Block,
    /// At this operation.
    Operation(OpIdx),
}

/// Where an interval ends.
#[derive(Clone, Copy, Debug, PartialEq, Eq, PartialOrd, Ord)]
pub enum End {
    /// At this operation.
    Operation(OpIdx),
    /// At the end of the block.
    Block,
}

/// An allocation.
#[derive(Clone, Debug, PartialEq, Eq)]
pub struct Allocation {
    /// The block that defines it.
    pub block: BlockId,
    /// The operation.
    pub operation: OpIdx,
    /// The local that holds its pointer first.
    pub base: LocalId,
    /// Its size.
    pub size: Size,
    /// Whether it is marked: its pointer may be known elsewhere, as one that is a log's topic, or stand where another's does.
    pub marked: bool,
    /// What marked it; 0 where it is not marked.
    pub flags: Flags,
    /// Where its pointers are alive; none where it is marked.
    pub intervals: Vec<Interval>,
}

impl Allocation {
    /// What marked it: an escaping operand, a return, a meeting, in this sequence; nothing where it is not marked.
    ///
    /// [`MarkCause::Meeting`] is there exactly where a pointer of this allocation and one of another may come to the same
    /// local; the other one has it too. The other two tell only of uses of locals at which this allocation was **first**.
    /// Who is first goes by turns. Every allocation is first at its own base. Then allocations take their turns by number, and
    /// each goes from its base, by operations that derive and over edges, to whatever nobody had yet: it is first there, and
    /// goes on from there, but not from a local that another one had.
    ///
    /// So where there is nothing but a meeting, the pointer may still stand in an escaping operand or be returned, by way of a
    /// local at which another allocation was first: that one tells. Without a meeting an allocation is first wherever its
    /// pointer may come to, and the other two tell all.
    ///
    /// ```no_run
    /// use sir_analyses::{AllocId, MarkCause};
    ///
    /// # fn main() -> Result<(), Box<dyn std::error::Error>> {
    /// let image = std::fs::read("typical.img")?;
    /// let allocation = sir_analyses::allocation(&image, AllocId(0))?;
    /// for cause in allocation.causes() {
    ///     println!("marked by {cause}");
    /// }
    /// if allocation.flags.has(MarkCause::Meeting) {
    ///     println!("its pointer may stand where another one does");
    /// }
    /// # Ok(())
    /// # }
    /// ```
    pub fn causes(&self) -> impl Iterator<Item = MarkCause> {
        self.flags.causes()
    }
}

/// The size of an allocation.
#[derive(Clone, Copy, Debug, PartialEq, Eq)]
pub enum Size {
    /// Known, for the allocation with this static id.
    Static {
        /// The size.
        size: u32,
        /// The static id.
        id: u32,
    },
    /// Held by a local.
    Dynamic {
        /// The local.
        size_local: LocalId,
    },
}

/// Whether two allocations cross. The operations at which an interval starts and ends belong to it.
#[derive(Clone, Copy, Debug, PartialEq, Eq)]
pub enum Crossing {
    /// Both are unmarked, and no operation lies in intervals of both: they meet nowhere, or only at block starts and ends
    /// with no operation in between.
    Never,
    /// Both are unmarked, and this operation of this block lies in intervals of both. It is the first that does, by block
    /// and then by operation.
    At(BlockId, OpIdx),
    /// One of them is marked, or both. A marked allocation crosses every one, itself included, and no operation is named.
    Marked,
}

/// Words that are ids of one sort.
pub(crate) fn ids<I: Id>(words: &[u32]) -> Vec<I> {
    words.iter().map(|&word| I::new(word)).collect()
}

/// Answers in turn, each after its length in words.
pub(crate) fn each<T>(words: &[u32], answer: impl Fn(&[u32]) -> T) -> Vec<T> {
    let mut rest = words;
    let mut all = Vec::new();
    while let [length, after @ ..] = rest {
        let (words, after) = after.split_at(*length as usize);
        all.push(answer(words));
        rest = after;
    }
    all
}

pub(crate) fn order(words: &[u32]) -> Vec<FunctionBlocks> {
    let mut rest = words;
    let mut order = Vec::new();
    while let [function, count, after @ ..] = rest {
        let (blocks, after) = after.split_at(*count as usize);
        order.push(FunctionBlocks { function: FunctionId(*function), blocks: ids(blocks) });
        rest = after;
    }
    order
}

pub(crate) fn uses(words: &[u32]) -> Vec<Use> {
    let use_of = |&[block, kind, at]: &[u32; 3]| {
        let place = match kind {
            0 => Place::Operation(OpIdx(at)),
            1 => Place::Control,
            _ => Place::BlockOutput(at),
        };
        Use { block: BlockId(block), place }
    };
    words.as_chunks().0.iter().map(use_of).collect()
}

pub(crate) fn intervals(words: &[u32]) -> Vec<Interval> {
    let interval = |&[block, start, end]: &[u32; 3]| Interval {
        block: BlockId(block),
        start: start.checked_sub(1).map_or(Start::Block, |operation| Start::Operation(OpIdx(operation))),
        end: if end == u32::MAX { End::Block } else { End::Operation(OpIdx(end - 1)) },
    };
    words.as_chunks().0.iter().map(interval).collect()
}

pub(crate) fn owner(words: &[u32]) -> Option<AllocId> {
    words[0].checked_sub(1).map(AllocId)
}

pub(crate) fn allocation(words: &[u32]) -> Allocation {
    let size = match words[3] {
        0 => Size::Static { size: words[4], id: words[5] },
        _ => Size::Dynamic { size_local: LocalId(words[4]) },
    };
    Allocation {
        block: BlockId(words[0]),
        operation: OpIdx(words[1]),
        base: LocalId(words[2]),
        size,
        marked: words[6] == 1,
        flags: Flags(words[7]),
        intervals: intervals(&words[9..]),
    }
}

pub(crate) fn crossing(words: &[u32]) -> Crossing {
    let named = |at: usize| words[at].checked_sub(1);
    match (words[0], named(1).zip(named(2))) {
        (0, _) => Crossing::Never,
        (_, Some((block, operation))) => Crossing::At(BlockId(block), OpIdx(operation)),
        (_, None) => Crossing::Marked,
    }
}

#[cfg(test)]
mod tests {
    use super::*;

    #[test]
    fn intervals_from_words() {
        let words = [3, 0, 1, 3, 1, u32::MAX, 4, 7, 9];
        let interval = |block, start, end| Interval { block: BlockId(block), start, end };
        let expected = [
            interval(3, Start::Block, End::Operation(OpIdx(0))),
            interval(3, Start::Operation(OpIdx(0)), End::Block),
            interval(4, Start::Operation(OpIdx(6)), End::Operation(OpIdx(8))),
        ];
        assert_eq!(intervals(&words), expected);
    }

    #[test]
    fn allocations_from_words() {
        let unmarked = Allocation {
            block: BlockId(3),
            operation: OpIdx(4),
            base: LocalId(5),
            size: Size::Static { size: 96, id: 7 },
            marked: false,
            flags: Flags(0),
            intervals: intervals(&[3, 5, u32::MAX, 8, 0, 9]),
        };
        assert_eq!(allocation(&[3, 4, 5, 0, 96, 7, 0, 0, 2, 3, 5, u32::MAX, 8, 0, 9]), unmarked);
        assert_eq!(unmarked.causes().count(), 0);
        let size = Size::Dynamic { size_local: LocalId(6) };
        let marked = Allocation { size, marked: true, flags: Flags(5), intervals: Vec::new(), ..unmarked };
        assert_eq!(allocation(&[3, 4, 5, 1, 6, 0, 1, 5, 0]), marked);
        assert!(marked.causes().eq([MarkCause::EscapingOperand, MarkCause::Meeting]));
    }

    /// The whole word is kept.
    #[test]
    fn flags_from_words() {
        let flags = [0, 1, 2, 4, 7, 8, u32::MAX].map(|word| allocation(&[0, 0, 0, 0, 0, 0, 1, word, 0]).flags);
        assert_eq!(flags, [0, 1, 2, 4, 7, 8, u32::MAX].map(Flags));
    }

    #[test]
    fn answers_in_turn() {
        assert_eq!(each(&[0, 2, 7, 8, 1, 9], ids::<LocalId>), [vec![], vec![LocalId(7), LocalId(8)], vec![LocalId(9)]]);
        assert_eq!(each(&[1, 0, 1, 3], owner), [None, Some(AllocId(2))]);
        assert_eq!(each(&[], owner), []);
    }

    #[test]
    fn crossings_from_words() {
        let crossings = [[0, 0, 0], [1, 1, 3], [1, 0, 0]].map(|words| crossing(&words));
        assert_eq!(crossings, [Crossing::Never, Crossing::At(BlockId(0), OpIdx(2)), Crossing::Marked]);
    }

    #[test]
    fn order_from_words() {
        let of = |function, blocks: &[u32]| FunctionBlocks { function: FunctionId(function), blocks: ids(blocks) };
        assert_eq!(order(&[2, 3, 0, 4, 1, 5, 0]), [of(2, &[0, 4, 1]), of(5, &[])]);
    }
}
