//! A second reading of the scope document and of the change requests after it, the papers: their refusals and their answers,
//! as plainly as they state them.
//!
//! Nothing here comes from Plank's files or from the proved crates, so that a misreading of the paper shows as a
//! difference. Two answers are stated there by reference to the source only: the sequence of the uses, and the owner of
//! a local; they are written out here from what the source does.

mod allocations;
mod chart;
pub mod codes;
mod flags;
mod flow;
mod open;
mod pages;
mod records;
mod report;
mod writing;

pub use chart::{chart, chart_text};
pub use flow::{BLOCK_END, Interval};
pub use report::report;
pub use writing::{call_write, write};

use allocations::Allocation;
use flow::{Liveness, Operands, Order};
use records::{Fit, Records};
use sir_questions::{AllocId, BlockId, IdKind, Question, QuestionKind};
use std::cell::OnceCell;
use std::collections::BTreeSet;
use std::ops::Range;

/// An image that no rule refuses, and its analyses.
#[derive(Clone, Debug)]
pub struct Reference {
    records: Records,
    order: Order,
    allocations: Vec<Allocation>,
    operands: OnceCell<Operands>,
    live: OnceCell<Liveness>,
    uses: OnceCell<allocations::Uses>,
    reaches: OnceCell<Vec<BTreeSet<usize>>>,
    firsts: OnceCell<Vec<BTreeSet<usize>>>,
    flags: OnceCell<Vec<u32>>,
    owners: OnceCell<Vec<u32>>,
    /// By allocation: its merged intervals, or `None` where it is marked.
    lifetimes: Vec<OnceCell<Option<Vec<Interval>>>>,
}

impl Reference {
    /// The image in these bytes, or the number of the first rule of the sequence that refuses it.
    pub fn new(image: &[u8]) -> Result<Reference, u32> {
        Reference::of(&pages::payload(image)?, pages::is_least)
    }

    /// The image of these payload words, which are to fit their counts so; or the number of the first rule after 3 that
    /// refuses it.
    fn of(words: &[u32], fit: Fit) -> Result<Reference, u32> {
        let records = records::records(words, fit)?;
        let order = Order::of(&records);
        let allocations = allocations::allocations(&records, &order);
        if allocations::breaks_12(&allocations) {
            return Err(12);
        }
        Ok(Reference {
            lifetimes: vec![OnceCell::new(); allocations.len()],
            records,
            order,
            allocations,
            operands: OnceCell::new(),
            live: OnceCell::new(),
            uses: OnceCell::new(),
            reaches: OnceCell::new(),
            firsts: OnceCell::new(),
            flags: OnceCell::new(),
            owners: OnceCell::new(),
        })
    }

    /// The answer to a question, as words; or 13, or 15.
    ///
    /// # Panics
    ///
    /// Where the answer is text.
    pub fn answer(&self, question: Question) -> Result<Vec<u32>, u32> {
        self.answer_within(question, usize::MAX)
    }

    /// The answer to a question as it stands in the result slice; or 13, or 15.
    pub fn bytes(&self, question: Question) -> Result<Vec<u8>, u32> {
        self.bytes_within(question, usize::MAX)
    }

    /// The answer to a question as it stands in a result slice of this length; or 13, 15 or 14.
    pub fn bytes_within(&self, question: Question, room: usize) -> Result<Vec<u8>, u32> {
        if question == Question::Chart {
            return self.chart(room).map(String::into_bytes);
        }
        Ok(self.answer_within(question, room / 4)?.into_iter().flat_map(u32::to_le_bytes).collect())
    }

    /// The answer to a question, as words; or 13, or 15, or 14 where there are more words than this.
    fn answer_within(&self, question: Question, most: usize) -> Result<Vec<u32>, u32> {
        if question.kind().ids.iter().zip(question.ids()).any(|(&kind, id)| id >= self.count(kind)) {
            return Err(13);
        }
        if let Question::Open(block, operation) = question
            && !self.operations_of(block).contains(&operation.0)
        {
            return Err(15);
        }
        let answer = match question {
            Question::Order => self.order(),
            Question::Predecessors(block) => words(&flow::predecessors(&self.records, &self.order)[block.0 as usize]),
            Question::EntrySet(block) => members(&self.live().entry[block.0 as usize]),
            Question::ExitSet(block) => members(&self.live().exit[block.0 as usize]),
            Question::Uses(local) => flow::uses(&self.records, &self.order, local.0 as usize),
            Question::Intervals(local) => interval_words(&self.intervals(local.0 as usize)),
            Question::Allocation(allocation) => self.allocation(allocation.0 as usize),
            Question::Owner(local) => vec![self.owners()[local.0 as usize]],
            Question::Rounds => vec![self.live().rounds],
            Question::AllPredecessors
            | Question::AllEntrySets
            | Question::AllExitSets
            | Question::AllUses
            | Question::AllIntervals
            | Question::AllAllocations
            | Question::AllOwners => self.in_turn(question.kind().single().expect("one of all ids"), most)?,
            Question::Open(block, operation) => self.open(block.0 as usize, operation.0 as usize),
            Question::Crossing(one, other) => open::crossing(&self.records, self.lifetime(one), self.lifetime(other)),
            Question::Records => self.records.words.clone(),
            Question::Chart => panic!("{question} is text"),
        };
        if answer.len() > most { Err(14) } else { Ok(answer) }
    }

    /// The answers for all ids in turn, each after its length; or 14 as soon as there are more words than this.
    fn in_turn(&self, single: &QuestionKind, most: usize) -> Result<Vec<u32>, u32> {
        let mut words = Vec::new();
        for question in single.about_all(|kind| self.count(kind), |_| 1) {
            let answer = self.answer_within(question, most)?;
            words.push(answer.len() as u32);
            words.extend(answer);
            if words.len() > most {
                return Err(14);
            }
        }
        Ok(words)
    }

    /// How many there are of what an id numbers.
    pub fn count(&self, kind: IdKind) -> u32 {
        let count = match kind {
            IdKind::Function => self.records.entries.len(),
            IdKind::Block => self.records.blocks.len(),
            IdKind::Operation => self.records.operations.len(),
            IdKind::Local => self.records.locals,
            IdKind::Allocation => self.allocations.len(),
        };
        count as u32
    }

    /// Whether a block is visited.
    pub fn is_visited(&self, block: BlockId) -> bool {
        self.order.blocks().any(|visited| visited == block.0 as usize)
    }

    /// The operations of a block's range.
    pub fn operations_of(&self, block: BlockId) -> Range<u32> {
        let range = &self.records.blocks[block.0 as usize].operations;
        range.start as u32..range.end as u32
    }

    /// The ids of a sort that go with an id before them in a question: with a block the operations of its range, and with any
    /// other all that there are.
    pub fn partners(&self, (of, id): (IdKind, u32), kind: IdKind) -> Vec<u32> {
        match (of, kind) {
            (IdKind::Block, IdKind::Operation) => self.operations_of(BlockId(id)).collect(),
            _ => (0..self.count(kind)).collect(),
        }
    }

    /// The merged intervals of an allocation, or `None` where it is marked.
    pub fn lifetime(&self, allocation: AllocId) -> Option<&[Interval]> {
        let number = allocation.0 as usize;
        let merged = || {
            let unmarked = !allocations::marked(self.reaches(), self.uses(), number);
            let of_reach = || self.reaches()[number].iter().flat_map(|&local| self.intervals(local)).collect();
            unmarked.then(|| allocations::merged(of_reach()))
        };
        self.lifetimes[number].get_or_init(merged).as_deref()
    }

    /// Where pointers stand in logs of visited blocks: the position of each operand that some allocation reaches.
    pub fn pointers_in_logs(&self) -> Vec<usize> {
        let reached: BTreeSet<usize> = self.reaches().iter().flatten().copied().collect();
        let logs = self.order.operations(&self.records).filter(|operation| codes::is_log(operation.code));
        logs.flat_map(|log| log.inputs.iter().enumerate())
            .filter(|(_, input)| reached.contains(input))
            .map(|(position, _)| position)
            .collect()
    }

    /// The flags of each allocation: what marked it.
    pub fn flags(&self) -> &[u32] {
        self.flags.get_or_init(|| flags::flags(self.reaches(), self.firsts(), self.uses()))
    }

    /// What the flags would be if the lowest number that reaches a local were first there. No answer has these: they tell
    /// whether an image shows that going by turns is something else.
    pub fn flags_by_lowest_number(&self) -> Vec<u32> {
        flags::flags(self.reaches(), &flags::lowest(self.reaches()), self.uses())
    }

    fn order(&self) -> Vec<u32> {
        let mut answer = Vec::new();
        for (function, blocks) in &self.order.functions {
            answer.extend([*function as u32, blocks.len() as u32]);
            answer.extend(words(blocks));
        }
        answer
    }

    fn operands(&self) -> &Operands {
        self.operands.get_or_init(|| Operands::of(&self.records))
    }

    fn live(&self) -> &Liveness {
        self.live.get_or_init(|| Liveness::of(&self.records, &self.order, self.operands()))
    }

    fn uses(&self) -> &allocations::Uses {
        self.uses.get_or_init(|| allocations::Uses::of(&self.records, &self.order))
    }

    fn reaches(&self) -> &[BTreeSet<usize>] {
        self.reaches.get_or_init(|| allocations::reaches(&self.allocations, self.uses()))
    }

    fn firsts(&self) -> &[BTreeSet<usize>] {
        self.firsts.get_or_init(|| allocations::firsts(&self.allocations, self.uses()))
    }

    fn owners(&self) -> &[u32] {
        let owners = || allocations::owners(&self.records, &self.allocations, self.uses(), self.firsts());
        self.owners.get_or_init(owners)
    }

    fn intervals(&self, local: usize) -> Vec<Interval> {
        flow::intervals(&self.records, &self.order, self.operands(), self.live(), local)
    }

    fn allocation(&self, number: usize) -> Vec<u32> {
        let allocation = self.allocations[number];
        let operation = &self.records.operations[allocation.operation];
        let lifetime = self.lifetime(AllocId(number as u32));
        // A marked allocation has no intervals.
        let intervals = lifetime.unwrap_or_default();
        let (kind, size, id) = match codes::is_dynamic_allocation(operation.code) {
            true => (1, operation.inputs[0] as u32, 0),
            false => (0, operation.extras[0], operation.extras[1]),
        };
        let mut answer = words(&[allocation.block, allocation.operation, allocation.base]);
        let mark = u32::from(lifetime.is_none());
        answer.extend([kind, size, id, mark, self.flags()[number], intervals.len() as u32]);
        answer.extend(interval_words(intervals));
        answer
    }

    fn open(&self, block: usize, operation: usize) -> Vec<u32> {
        let all = 0..self.allocations.len() as u32;
        all.filter(|&number| open::is_open(self.lifetime(AllocId(number)), block, operation)).collect()
    }
}

fn words(numbers: &[usize]) -> Vec<u32> {
    numbers.iter().map(|&number| number as u32).collect()
}

fn members(set: &[bool]) -> Vec<u32> {
    (0..set.len() as u32).filter(|&member| set[member as usize]).collect()
}

fn interval_words(intervals: &[Interval]) -> Vec<u32> {
    intervals.iter().flat_map(|&(block, start, end)| [block, start, end]).collect()
}

/// The number that refuses an image, or 0.
pub fn refusal(image: &[u8]) -> u32 {
    Reference::new(image).err().unwrap_or(0)
}

/// A call: the number and the length that it gives, and the result slice as it leaves it.
pub fn call(image: &[u8], question: Question, result: &mut [u8]) -> (u32, u64) {
    put(Reference::new(image).and_then(|reference| reference.bytes_within(question, result.len())), result)
}

/// What a call gives: bytes, for which the slice has room, or the number of a refusal.
fn put(answer: Result<Vec<u8>, u32>, result: &mut [u8]) -> (u32, u64) {
    match answer {
        Ok(bytes) => {
            result[..bytes.len()].copy_from_slice(&bytes);
            (0, bytes.len() as u64)
        }
        Err(number) => (number, 0),
    }
}
