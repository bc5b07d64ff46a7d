//! What was compared, and how often each case came up that a question turns on.

mod charts;

pub use charts::Charts;

use crate::sides::words_of;
use paper_reference::{Interval, Reference};
use sir_image::HEADER_WORDS;
use sir_image::pages::PAYLOAD_WORDS;
use sir_questions::{AllocId, BlockId, IdKind, OpIdx, Question, Refusal};
use std::fmt::{self, Display, Formatter};

/// What was compared.
#[derive(Clone, Copy, Debug, Default)]
pub struct Tally {
    /// Images.
    pub images: u64,
    /// Images that some rule refuses.
    pub refused: u64,
    /// Images that were not compared: a topic of theirs is a pointer, and Plank was asked unaltered.
    pub left_out: u64,
    /// Answers in words.
    pub answers: u64,
    /// Words of these answers.
    pub words: u64,
    /// Allocations, and those of them that are marked.
    pub allocations: [u64; 2],
    /// Merged intervals.
    pub merged: u64,
    /// The most rounds of an image.
    pub most_rounds: u32,
    /// What marked allocations.
    pub flags: MarkFlags,
    /// Pointers in logs.
    pub logs: Logs,
    /// What was open.
    pub open: Open,
    /// What crossed.
    pub crossings: Crossings,
    /// What was drawn.
    pub charts: Charts,
    /// What was written.
    pub writing: Writing,
}

impl Tally {
    /// The bytes of an answer that is compared; text is counted apart.
    pub fn compared(&mut self, question: Question, answer: &[u8]) {
        if !question.kind().is_text() {
            self.answers += 1;
            self.words += answer.len() as u64 / 4;
        }
    }

    /// What the paper says to a question: the bytes of an answer, or the number of a refusal.
    pub fn note(&mut self, paper: &Reference, question: Question, said: Result<&[u8], u32>) {
        match (question, said) {
            (Question::Allocation(_), Ok(answer)) => {
                let answer = words_of(answer);
                self.allocations[0] += 1;
                self.allocations[1] += u64::from(answer[6]);
                self.merged += u64::from(answer[8]);
            }
            (Question::Rounds, Ok(answer)) => self.most_rounds = self.most_rounds.max(words_of(answer)[0]),
            (Question::Open(block, operation), said) => self.open.note(paper, block, operation, said),
            (Question::Crossing(one, other), Ok(answer)) => {
                self.crossings.note(paper, [one, other], &words_of(answer));
            }
            (Question::Chart, Ok(answer)) => self.charts.note(paper, answer),
            _ => {}
        }
    }
}

/// What marked allocations.
#[derive(Clone, Copy, Debug, Default)]
pub struct MarkFlags {
    /// Allocations, by their flags.
    pub allocations: [u64; 8],
    /// Images in which some allocation would have other flags if the lowest number that reaches a local were first there.
    pub by_turns: u64,
}

impl MarkFlags {
    /// Those of an image.
    pub fn note(&mut self, paper: &Reference) {
        let flags = paper.flags();
        flags.iter().for_each(|&flags| self.allocations[flags as usize] += 1);
        self.by_turns += u64::from(flags != paper.flags_by_lowest_number());
    }
}

impl Display for MarkFlags {
    fn fmt(&self, f: &mut Formatter<'_>) -> fmt::Result {
        let counts = self.allocations.iter().enumerate().map(|(flags, count)| format!("{flags}: {count}"));
        let counts: Vec<String> = counts.collect();
        let by_turns = self.by_turns;
        write!(
            f,
            "flags: {}; in {by_turns} images other ones if the lowest number that reaches a local were first there",
            counts.join(", ")
        )
    }
}

/// How often an operand of a log of a visited block is a pointer.
#[derive(Clone, Copy, Debug, Default)]
#[allow(missing_docs)]
pub struct Logs {
    pub offsets: u64,
    pub sizes: u64,
    pub topics: u64,
}

impl Logs {
    /// Those of an image.
    pub fn note(&mut self, paper: &Reference) {
        for position in paper.pointers_in_logs() {
            let count = match position {
                0 => &mut self.offsets,
                1 => &mut self.sizes,
                _ => &mut self.topics,
            };
            *count += 1;
        }
    }
}

impl Display for Logs {
    fn fmt(&self, f: &mut Formatter<'_>) -> fmt::Result {
        let Logs { offsets, sizes, topics } = self;
        write!(f, "logs: {offsets} offsets, {sizes} sizes and {topics} topics are pointers")
    }
}

/// What was open at operations of blocks.
#[derive(Clone, Copy, Debug, Default)]
pub struct Open {
    /// Lists with members.
    pub some: u64,
    /// Empty lists, of visited blocks.
    pub none: u64,
    /// Empty lists, of blocks that are not visited.
    pub unvisited: u64,
    /// Operations that the block does not hold: 15.
    pub not_held: u64,
    /// Of these, those whose number lies in an interval that ends with the block, or that starts with it.
    pub not_held_in_number: u64,
}

impl Open {
    fn note(&mut self, paper: &Reference, block: BlockId, operation: OpIdx, said: Result<&[u8], u32>) {
        match said {
            Ok([]) if !paper.is_visited(block) => self.unvisited += 1,
            Ok([]) => self.none += 1,
            Ok(_) => self.some += 1,
            Err(number) if number == Refusal::NOT_IN_BLOCK.number() => {
                self.not_held += 1;
                let at = operation.0 + 1;
                let in_number = |&(of, start, end): &Interval| of == block.0 && start <= at && at <= end;
                self.not_held_in_number += u64::from(lifetimes(paper).any(|life| life.iter().any(in_number)));
            }
            Err(_) => {}
        }
    }
}

/// The intervals of each unmarked allocation.
fn lifetimes(paper: &Reference) -> impl Iterator<Item = &[Interval]> {
    (0..paper.count(IdKind::Allocation)).filter_map(|number| paper.lifetime(AllocId(number)))
}

impl Display for Open {
    fn fmt(&self, f: &mut Formatter<'_>) -> fmt::Result {
        let Open { some, none, unvisited, not_held, not_held_in_number } = self;
        write!(
            f,
            "open: {some} lists with members, {none} empty, {unvisited} empty in unvisited blocks; {not_held} operations \
             not of the block, {not_held_in_number} of them in an interval by their numbers"
        )
    }
}

/// How pairs of allocations crossed.
#[derive(Clone, Copy, Debug, Default)]
pub struct Crossings {
    /// Pairs of which one is marked.
    pub marked: u64,
    /// Pairs that cross at an operation.
    pub crossing: u64,
    /// Of these, those that cross first where an interval of one ends and one of the other starts.
    pub touching: u64,
    /// Of those that cross, those with intervals that meet before, where there is no operation of the block.
    pub after_bare: u64,
    /// Unmarked pairs that do not cross.
    pub never: u64,
    /// Of these, those with intervals that meet, where there is no operation of the block.
    pub bare: u64,
    /// Of those that do not cross, those of an allocation with itself.
    pub not_itself: u64,
}

impl Crossings {
    fn note(&mut self, paper: &Reference, pair: [AllocId; 2], answer: &[u32]) {
        let [Some(one), Some(other)] = pair.map(|allocation| paper.lifetime(allocation)) else {
            self.marked += 1;
            return;
        };
        let met = first_meeting(one, other);
        if answer[0] == 0 {
            self.never += 1;
            self.bare += u64::from(met.is_some());
            self.not_itself += u64::from(pair[0] == pair[1]);
        } else {
            let point = (answer[1] - 1, answer[2]);
            self.crossing += 1;
            self.touching += u64::from(touch(one, other, point) || touch(other, one, point));
            self.after_bare += u64::from(met.is_some_and(|met| met < point));
        }
    }
}

impl Display for Crossings {
    fn fmt(&self, f: &mut Formatter<'_>) -> fmt::Result {
        let Crossings { marked, crossing, touching, after_bare, never, bare, not_itself } = self;
        write!(
            f,
            "crossings: {marked} with a marked one; {crossing} at an operation, {touching} of them where an interval of one \
             ends and one of the other starts, {after_bare} after a meeting without an operation; {never} never, {bare} of \
             them with such a meeting, {not_itself} of them of an allocation with itself"
        )
    }
}

/// The first block, and in it the first number of an operation + 1, that intervals of both have, as if every number were
/// that of an operation of the block.
fn first_meeting(one: &[Interval], other: &[Interval]) -> Option<(u32, u32)> {
    let meeting = |a: &Interval, b: &Interval| {
        let (start, end) = (a.1.max(b.1).max(1), a.2.min(b.2));
        (a.0 == b.0 && start <= end).then_some((a.0, start))
    };
    one.iter().flat_map(|a| other.iter().filter_map(move |b| meeting(a, b))).min()
}

/// Whether an interval ends at a point at which one of the other's starts.
fn touch(one: &[Interval], other: &[Interval], (block, at): (u32, u32)) -> bool {
    let ends = one.iter().any(|&(of, _, end)| (of, end) == (block, at));
    ends && other.iter().any(|&(of, start, _)| (of, start) == (block, at))
}

/// What was written of records.
#[derive(Clone, Copy, Debug, Default)]
pub struct Writing {
    /// Images that were written back, byte for byte.
    pub images: u64,
    /// Records that were accepted, those of images included.
    pub accepted: u64,
    /// Records that were refused, by the place of the refusal in [`Refusal::ALL`].
    pub refused: [u64; Refusal::ALL.len()],
    /// Of these, those of fewer than nine words, or of no whole number of words.
    pub outright: u64,
    /// Records of nine words.
    pub nine: u64,
    /// Accepted records that fill their pages.
    pub full: u64,
    /// Accepted records that are one word longer than that.
    pub one_more: u64,
    /// Accepted records of as many words as there can be.
    pub most: u64,
}

impl Writing {
    /// Records, and what the paper makes of them: pages, or the number of a refusal. Gives how many there were before them.
    pub fn note(&mut self, records: &[u8], paper: &Result<Vec<u8>, u32>) -> usize {
        let before = self.accepted + self.refused.iter().sum::<u64>();
        let words = records.len() / 4;
        self.nine += u64::from(records.len() == 4 * HEADER_WORDS);
        match paper {
            Ok(_) => {
                self.accepted += 1;
                self.full += u64::from(words.is_multiple_of(PAYLOAD_WORDS));
                self.one_more += u64::from(words % PAYLOAD_WORDS == 1);
                self.most += u64::from(words == MOST_WORDS);
            }
            Err(number) => {
                let place = Refusal::ALL.iter().position(|refusal| refusal.number() == *number);
                self.refused[place.expect("a refusal of the table")] += 1;
                self.outright += u64::from(words < HEADER_WORDS || !records.len().is_multiple_of(4));
            }
        }
        before as usize
    }
}

/// The words of an image with every count at its limit.
const MOST_WORDS: usize = 14_665;

impl Display for Writing {
    fn fmt(&self, f: &mut Formatter<'_>) -> fmt::Result {
        let Writing { images, accepted, refused, outright, nine, full, one_more, most } = self;
        let counts = Refusal::ALL.iter().zip(refused).filter(|&(_, &count)| count > 0);
        let counts: Vec<String> = counts.map(|(refusal, count)| format!("{}: {count}", refusal.number())).collect();
        let counts = if counts.is_empty() { "none".to_string() } else { counts.join(", ") };
        write!(
            f,
            "writing: {images} images written back; {accepted} records accepted, {full} of them fill their pages, {one_more} \
             are one word longer, {most} are of {MOST_WORDS} words; refused {counts}, {outright} of them outright; {nine} were \
             of nine words"
        )
    }
}

#[cfg(test)]
mod tests {
    use super::*;
    use sir_image::{Image, samples};

    /// The cases of every pair of ids of an image.
    fn tally(image: &Image) -> Tally {
        let paper = Reference::new(&image.pages()).unwrap();
        let mut tally = Tally::default();
        for kind in Question::KINDS.iter().filter(|kind| kind.ids.len() == 2) {
            for question in kind.about_all(|id| paper.count(id), |_| 1) {
                let said = paper.bytes(question);
                tally.note(&paper, question, said.as_deref().map_err(|&number| number));
            }
        }
        tally
    }

    /// Each position of each log holds a pointer: five offsets, five sizes, ten topics.
    #[test]
    fn logs() {
        let mut logs = Logs::default();
        logs.note(&Reference::new(&samples::logs().pages()).unwrap());
        assert_eq!([logs.offsets, logs.sizes, logs.topics], [5, 5, 10]);
    }

    /// Each sum of flags once, by turns and by numbers alike; and an image in which turns matter.
    #[test]
    fn flags() {
        let mut flags = MarkFlags::default();
        flags.note(&Reference::new(&samples::every_flag().pages()).unwrap());
        assert_eq!((flags.allocations, flags.by_turns), ([1; 8], 0));
        flags.note(&Reference::new(&samples::through_a_base().pages()).unwrap());
        assert_eq!((flags.allocations, flags.by_turns), ([1, 1, 1, 1, 2, 2, 1, 1], 1));
    }

    #[test]
    fn cases() {
        let Tally { open, crossings, .. } = tally(&samples::touching());
        assert_eq!([open.some, open.none, open.unvisited, open.not_held], [7, 1, 0, 0]);
        assert_eq!([crossings.crossing, crossings.touching, crossings.never, crossings.marked], [4, 2, 0, 0]);
        let Tally { open, crossings, .. } = tally(&samples::bare_ends());
        assert_eq!([open.some, open.none, open.unvisited, open.not_held], [1, 4, 2, 21]);
        assert_eq!(open.not_held_in_number, 7);
        assert_eq!([crossings.crossing, crossings.after_bare, crossings.touching], [1, 1, 0]);
        assert_eq!([crossings.never, crossings.bare, crossings.not_itself], [3, 3, 1]);
        assert_eq!(tally(&samples::sum_of_pointers()).crossings.marked, 4);
    }

    #[test]
    fn writing() {
        let mut writing = Writing::default();
        let turns = image_gen::known().into_iter().map(|lent| {
            let paper = paper_reference::write(&lent.records);
            writing.note(&lent.records, &paper)
        });
        assert!(turns.eq(0..30));
        assert_eq!([writing.accepted, writing.full, writing.one_more, writing.most], [9, 2, 2, 1]);
        assert_eq!(writing.refused, [0, 0, 0, 5, 2, 13, 1, 0, 0, 0, 0, 0, 0, 0, 0]);
        assert_eq!([writing.outright, writing.nine, writing.images], [5, 3, 0]);
    }
}
