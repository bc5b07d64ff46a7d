//! Questions about an image.

use crate::ids::*;
use std::fmt::{self, Display, Formatter};
use std::str::FromStr;

/// Hands the table of the questions to a macro. A line is: number, name with ids and their types, name of the function that
/// answers (in C after `sir_`). `of` names the question about one id whose answers for all ids are given; `as text` stands
/// where the answer is text, and not words. Numbers are those of recorded files, so that none changes.
#[macro_export]
macro_rules! questions {
    ($then:ident) => {
        $then! {
            /// The order. For each function of it: id, block count, block ids.
            0 Order = order;
            /// The predecessors of a block, repeats kept.
            1 Predecessors(block: BlockId) = predecessors;
            /// The entry set of a block, ids ascending.
            2 EntrySet(block: BlockId) = entry_set;
            /// The exit set of a block, ids ascending.
            3 ExitSet(block: BlockId) = exit_set;
            /// The uses of a local. For each: block, kind, place.
            4 Uses(local: LocalId) = uses;
            /// The intervals of a local. For each: block, start, end.
            5 Intervals(local: LocalId) = intervals;
            /// An allocation: defining block, operation, base local, kind, size or size local, static id, mark, flags,
            /// interval count, intervals.
            6 Allocation(allocation: AllocId) = allocation;
            /// The owner of a local: allocation + 1, or 0.
            7 Owner(local: LocalId) = owner;
            /// The rounds of liveness: one word.
            8 Rounds = rounds;
            /// The predecessors of all blocks: those of block 0, 1, .., each answer after its length in words.
            9 AllPredecessors of predecessors = all_predecessors;
            /// The entry sets of all blocks: that of block 0, 1, .., each answer after its length in words.
            10 AllEntrySets of entry_set = all_entry_sets;
            /// The exit sets of all blocks: that of block 0, 1, .., each answer after its length in words.
            11 AllExitSets of exit_set = all_exit_sets;
            /// The uses of all locals: those of local 0, 1, .., each answer after its length in words.
            12 AllUses of uses = all_uses;
            /// The intervals of all locals: those of local 0, 1, .., each answer after its length in words.
            13 AllIntervals of intervals = all_intervals;
            /// All allocations: allocation 0, 1, .., each answer after its length in words.
            14 AllAllocations of allocation = all_allocations;
            /// The owners of all locals: that of local 0, 1, .., each answer after its length in words, 1.
            15 AllOwners of owner = all_owners;
            /// The allocations that are open at an operation of a block: the unmarked ones with an interval over it, ascending.
            16 Open(block: BlockId, operation: OpIdx) = open;
            /// Whether two allocations cross: 1 or 0, then block + 1 and operation + 1 of the first operation in intervals
            /// of both. One that is marked crosses all, with no operation named: 1, 0, 0.
            17 Crossing(one: AllocId, other: AllocId) = crossing;
            /// The records of the image: its payload words without padding.
            18 Records = records;
            /// The chart for the review sheet: lines of 72 characters and a line feed, on sheets of 60 lines, with a column for
            /// each allocation, 64 of them a series.
            20 Chart = chart as text;
        }
    };
}

macro_rules! define {
    ($(
        $(#[$doc:meta])*
        $number:literal $question:ident $(($($id:ident: $type:ident),+))? $(of $one:ident)? = $name:ident $(as $form:ident)?;
    )*) => {
        /// A question about an image, with the ids that it is about.
        #[derive(Clone, Copy, Debug, PartialEq, Eq, Hash)]
        pub enum Question {
            $($(#[$doc])* $question $(($($type),+))?,)*
        }

        impl Question {
            /// Every kind of question, by number.
            pub const KINDS: &[QuestionKind] = &[$(QuestionKind {
                number: $number,
                name: stringify!($name),
                ids: &[$($($type::KIND),+)?],
                of: &[$(stringify!($one))?],
                form: &[$(stringify!($form))?],
            }),*];

            /// The question of a number and ids, where there is such a question and it takes so many.
            pub fn new(number: u32, ids: &[u32]) -> Option<Question> {
                match (number, ids) {
                    $(($number, &[$($($id),+)?]) => Some(Question::$question $(($($type::new($id)),+))?),)*
                    _ => None,
                }
            }

            /// Its number in recorded files.
            pub const fn number(self) -> u32 {
                match self {
                    $(Question::$question { .. } => $number,)*
                }
            }

            /// The ids that it is about, as numbers.
            pub fn ids(self) -> Vec<u32> {
                match self {
                    $(Question::$question $(($($id),+))? => vec![$($($id.get()),+)?],)*
                }
            }
        }
    };
}

questions!(define);

impl Question {
    /// What is left of it without its ids.
    pub fn kind(self) -> &'static QuestionKind {
        Question::KINDS.iter().find(|kind| kind.number == self.number()).expect("every question has its line")
    }
}

/// A question without its ids.
#[derive(Clone, Copy, Debug, PartialEq, Eq, Hash)]
pub struct QuestionKind {
    /// Its number in recorded files.
    pub number: u32,
    /// Its name: that of the function that answers.
    pub name: &'static str,
    /// What its ids number.
    pub ids: &'static [IdKind],
    /// The name of the question about one id that it puts for all ids, if it does.
    of: &'static [&'static str],
    /// What its answer is, where that is not words.
    form: &'static [&'static str],
}

impl QuestionKind {
    /// The question about one id whose answers for all ids this one gives, where it is such a question.
    pub fn single(&self) -> Option<&'static QuestionKind> {
        Question::KINDS.iter().find(|kind| self.of.contains(&kind.name))
    }

    /// Whether its answer is text: bytes that are no words.
    pub fn is_text(&self) -> bool {
        self.form == ["text"]
    }

    /// The question of this kind about these ids.
    ///
    /// # Panics
    ///
    /// Where there are more ids, or fewer, than the question takes.
    pub fn about(&self, ids: &[u32]) -> Question {
        Question::new(self.number, ids).expect("as many ids as the question takes")
    }

    /// The question about ids that are all 0.
    pub fn about_zeros(&self) -> Question {
        self.about(&vec![0; self.ids.len()])
    }

    /// The questions about all ids below their counts, in turn; of each sort of id only those a step apart that may depend on
    /// its count. One question where there are no ids.
    pub fn about_all(&self, count: impl Fn(IdKind) -> u32, step: impl Fn(u32) -> u32) -> Vec<Question> {
        self.about_each(|kind, _| {
            let count = count(kind);
            (0..count).step_by(step(count).max(1) as usize).collect()
        })
    }

    /// The questions about ids that are chosen one after the other: each is taken, in turn, from those that are given for its
    /// sort and for the ids before it.
    pub fn about_each(&self, choose: impl Fn(IdKind, &[u32]) -> Vec<u32>) -> Vec<Question> {
        let mut lists: Vec<Vec<u32>> = vec![Vec::new()];
        for &kind in self.ids {
            let longer = |ids: &Vec<u32>| {
                let all = choose(kind, ids).into_iter();
                all.map(|id| [ids.as_slice(), &[id]].concat()).collect::<Vec<_>>()
            };
            lists = lists.iter().flat_map(longer).collect();
        }
        lists.iter().map(|ids| self.about(ids)).collect()
    }

    /// For each id of the question one that is too large, the others 0.
    pub fn about_unknown(&self, too_large: impl Fn(IdKind) -> u32) -> Vec<Question> {
        let at = |unknown: usize| {
            let id = |(index, &kind)| if index == unknown { too_large(kind) } else { 0 };
            self.about(&self.ids.iter().enumerate().map(id).collect::<Vec<_>>())
        };
        (0..self.ids.len()).map(at).collect()
    }
}

/// What writes lent records as the pages of an image. It takes no image, and so is no [`Question`].
pub const WRITE: Writer = Writer { number: 19, name: "write" };

/// A function that takes lent records.
#[derive(Clone, Copy, Debug, PartialEq, Eq)]
pub struct Writer {
    /// Its number in recorded files, one that no question has.
    pub number: u32,
    /// Its name, in C after `sir_`.
    pub name: &'static str,
}

/// The names of all functions of the library, in C after `sir_`: those that answer questions, and the writer's.
pub fn function_names() -> impl Iterator<Item = &'static str> {
    Question::KINDS.iter().map(|kind| kind.name).chain([WRITE.name])
}

/// As a user types it: the name; after a colon the ids, separated by commas.
impl Display for Question {
    fn fmt(&self, f: &mut Formatter<'_>) -> fmt::Result {
        f.write_str(self.kind().name)?;
        for (index, id) in self.ids().iter().enumerate() {
            write!(f, "{}{id}", if index == 0 { ':' } else { ',' })?;
        }
        Ok(())
    }
}

/// A text that is no question.
#[derive(Clone, Debug, PartialEq, Eq)]
pub struct Unknown(String);

impl Display for Unknown {
    fn fmt(&self, f: &mut Formatter<'_>) -> fmt::Result {
        let names: Vec<&str> = Question::KINDS.iter().map(|kind| kind.name).collect();
        write!(f, "no question {}, or not with so many ids; there are {}", self.0, names.join(", "))
    }
}

impl std::error::Error for Unknown {}

impl FromStr for Question {
    type Err = Unknown;

    fn from_str(text: &str) -> Result<Question, Unknown> {
        let unknown = || Unknown(text.to_string());
        let (name, ids) = text.split_once(':').unwrap_or((text, ""));
        let ids = ids.split(',').filter(|id| !id.is_empty()).map(str::parse);
        let ids: Vec<u32> = ids.collect::<Result<_, _>>().map_err(|_| unknown())?;
        let kind = Question::KINDS.iter().find(|kind| kind.name == name).ok_or_else(unknown)?;
        Question::new(kind.number, &ids).ok_or_else(unknown)
    }
}

#[cfg(test)]
mod tests {
    use super::*;

    /// Numbers and names tell questions apart, and a question is found again by either.
    #[test]
    fn found_again() {
        for (index, kind) in Question::KINDS.iter().enumerate() {
            assert!(
                Question::KINDS[..index].iter().all(|other| other.number != kind.number && other.name != kind.name)
            );
            let ids: Vec<u32> = (7..).take(kind.ids.len()).collect();
            let question = kind.about(&ids);
            assert_eq!((question.kind(), question.ids()), (kind, ids));
            assert_eq!(question.to_string().parse(), Ok(question));
        }
    }

    /// Each question about one id has one for all ids, which takes none; no other question has, not one about two ids.
    #[test]
    fn all_of_a_question() {
        for kind in Question::KINDS {
            let all: Vec<_> = Question::KINDS.iter().filter(|other| other.single() == Some(kind)).collect();
            assert_eq!(all.len(), usize::from(kind.ids.len() == 1), "{}", kind.name);
            assert!(all.iter().all(|all| all.ids.is_empty()));
            assert_eq!(kind.single().is_some(), kind.name.starts_with("all_"), "{}", kind.name);
        }
    }

    /// The chart alone is text.
    #[test]
    fn text() {
        let text: Vec<&str> = Question::KINDS.iter().filter(|kind| kind.is_text()).map(|kind| kind.name).collect();
        assert_eq!(text, ["chart"]);
    }

    /// The writer is told from every question, and is none.
    #[test]
    fn the_writer_is_no_question() {
        assert!(Question::KINDS.iter().all(|kind| kind.number != WRITE.number && kind.name != WRITE.name));
        assert!(WRITE.name.parse::<Question>().is_err());
        assert_eq!(function_names().count(), Question::KINDS.len() + 1);
    }

    #[test]
    fn texts() {
        assert_eq!("order".parse(), Ok(Question::Order));
        assert_eq!("exit_set:3".parse(), Ok(Question::ExitSet(BlockId(3))));
        assert_eq!(Question::ExitSet(BlockId(3)).to_string(), "exit_set:3");
        assert_eq!("open:3,7".parse(), Ok(Question::Open(BlockId(3), OpIdx(7))));
        assert_eq!(Question::Crossing(AllocId(1), AllocId(0)).to_string(), "crossing:1,0");
        for unknown in ["", "orders", "order:1", "uses", "uses:x", "uses:1,2", "uses:4294967296", "open:3", "crossing"]
        {
            assert!(unknown.parse::<Question>().is_err(), "{unknown}");
        }
    }

    #[test]
    fn lists_of_questions() {
        let [order, predecessors] = [Question::KINDS[0], Question::KINDS[1]];
        let all = |count, step| predecessors.about_all(|_| count, |_| step);
        let about = |ids: &[u32]| ids.iter().map(|&id| Question::Predecessors(BlockId(id))).collect::<Vec<_>>();
        assert_eq!((all(3, 1), all(5, 2)), (about(&[0, 1, 2]), about(&[0, 2, 4])));
        assert_eq!((all(0, 1), all(2, 0)), (about(&[]), about(&[0, 1])));
        assert_eq!(order.about_all(|_| 0, |_| 1), [Question::Order]);
        assert_eq!((predecessors.about_unknown(|_| 9), order.about_unknown(|_| 9)), (about(&[9]), vec![]));
        assert_eq!(predecessors.about_zeros(), Question::Predecessors(BlockId(0)));
    }

    #[test]
    fn lists_of_two_ids() {
        let open = Question::Open(BlockId(0), OpIdx(0)).kind();
        let ids = |questions: Vec<Question>| questions.into_iter().map(Question::ids).collect::<Vec<_>>();
        let count = |kind| if kind == IdKind::Block { 2 } else { 3 };
        assert_eq!(ids(open.about_all(count, |_| 1)), [[0, 0], [0, 1], [0, 2], [1, 0], [1, 1], [1, 2]]);
        assert_eq!(ids(open.about_all(count, |count| count - 1)), [[0, 0], [0, 2], [1, 0], [1, 2]]);
        let held = |_: IdKind, before: &[u32]| if before.is_empty() { vec![4, 6] } else { vec![10 * before[0]] };
        assert_eq!(ids(open.about_each(held)), [[4, 40], [6, 60]]);
        assert_eq!(ids(open.about_unknown(count)), [[2, 0], [0, 3]]);
    }
}
