//! Puts images to Plank's own analyses and gives their answers as the paper writes them.
//!
//! Plank's files are compiled unchanged from the folder that the environment variable `PLANK_SRC` names, absolute or from
//! the root of the repository; `sources.rs` has a default. None of them stands in the repository. Where the folder is
//! missing, the crates build to nothing but this interface: [`PRESENT`] is false and [`Program::new`] gives `None`.
//!
//! One of them, `allocation_liveness.rs`, is compiled a second time with four arms altered: those of `Log1` to `Log4` in
//! `operation_causes_ptr_escape`, by which topics escape (request R-2). `sources.rs` has the text that is replaced, and the
//! build fails where the file does not have it. A [`Source`] says which of the two answers.
//!
//! # Shims
//!
//! What the files name and what is not among them stands in shims. After each: whether it could sway an answer.
//!
//! | stands for | shim | could sway |
//! |---|---|---|
//! | `plank_core`'s `lib.rs` | `plank_core/src/lib.rs`: modules and re-exports | nothing |
//! | `index_vec/idx_slice.rs` | `IndexSlice` that nobody makes | nothing |
//! | `allocator_api2` | `Vec` over the standard library's, the allocator carried along | nothing |
//! | `hashbrown` | the standard library's set and map with a folding hasher | the sequence of members: liveness only inserts and joins what changed, and intervals are drained one for each local, so no answer follows it; speed follows the hasher |
//! | `alloy_primitives`, `plank_test_utils`, `pretty_assertions` | stubs for text | nothing |
//! | `sir_data`'s `index.rs` | ids made by the source's own `newtype_index` | nothing |
//! | `sir_data`'s `builder.rs` | empty; programs are made by [`Program::new`] | nothing |
//! | `sir_data`'s `operation.rs` | the enum `Operation` and its payloads | **operands**: `inputs` and `outputs` give the record's runs in the record's order, so positions in escaping inputs rest on the paper's operand counts and on that order; **calls**: callee, inputs and outputs are those of the record; **static allocations**: size and id are the record's extras |
//! | `Analysis` | the trait as the files implement it | nothing |
//! | `AnalysesStore` | each analysis computed once from its default | nothing: the source's store may reuse an analysis, which each `compute` clears first |
//! | `reachable_blocks` | the visited blocks, as the paper has it | **predecessors**, and liveness through them |
//!
//! [`Program::new`] makes the program itself: records become the source's structs field by field; every switch gets a
//! `Cases` of its own over the image's targets; case values, large constants, data segments, the return kind and source
//! of functions and `next_static_alloc_id` hold nothing, and no analysis reads them.

#[cfg(plank_sources)]
mod present;
#[cfg(plank_sources)]
pub use present::{Analyses, Program, SOURCES};

#[cfg(not(plank_sources))]
mod absent;
#[cfg(not(plank_sources))]
pub use absent::{Analyses, Program, SOURCES};

use sir_questions::{Question, QuestionKind, Refusal};

/// The text of `allocation_liveness.rs` that answers.
#[derive(Clone, Copy, Debug, PartialEq, Eq)]
pub enum Source {
    /// With the arms of `Log1` to `Log4` altered: their topics let a pointer escape.
    Altered,
    /// As it is: no input of a log does.
    Unaltered,
}

/// Whether Plank's files were there when this was built.
pub const PRESENT: bool = SOURCES.is_some();

/// Whether Plank can be asked about an image that is refused with this number, or with 0: its files assert where bases are
/// shared, and no image that breaks an earlier rule is put to them.
pub fn takes(number: u32) -> bool {
    number == 0 || number == Refusal::SHARED_BASE.number()
}

/// The place in the record of an allocation at which the flags stand, which Plank's record does not have.
const FLAGS: usize = 7;

/// What is left of an answer without the words that Plank does not have: what marked an allocation (request R-5).
pub fn without_flags(question: Question, answer: Vec<u32>) -> Vec<u32> {
    match question {
        Question::Allocation(_) => shorter(&answer),
        Question::AllAllocations => {
            let mut rest = answer.as_slice();
            let mut words = Vec::new();
            while let [length, after @ ..] = rest {
                let (record, after) = after.split_at(*length as usize);
                words.push(length - 1);
                words.extend(shorter(record));
                rest = after;
            }
            words
        }
        _ => answer,
    }
}

/// The record of an allocation without its flags.
fn shorter(record: &[u32]) -> Vec<u32> {
    [&record[..FLAGS], &record[FLAGS + 1..]].concat()
}

impl Analyses<'_> {
    /// Plank's answer to a question, where it has one: it reports no rounds, neither what is open at an operation nor what
    /// crosses, draws no chart, and has no image whose records it could give. Its record of an allocation has no flags
    /// ([`without_flags`]).
    pub fn answer(&self, question: Question) -> Option<Vec<u32>> {
        if let Some(single) = question.kind().single() {
            return self.in_turn(single);
        }
        Some(match question {
            Question::Order => self.order(),
            Question::Predecessors(block) => self.predecessors(block.0),
            Question::EntrySet(block) => self.entry_set(block.0),
            Question::ExitSet(block) => self.exit_set(block.0),
            Question::Uses(local) => self.uses(local.0),
            Question::Intervals(local) => self.intervals(local.0),
            Question::Allocation(allocation) => self.allocation(allocation.0),
            Question::Owner(local) => self.owner(local.0),
            _ => return None,
        })
    }

    /// Plank's answers for all ids in turn, each after its length.
    fn in_turn(&self, single: &QuestionKind) -> Option<Vec<u32>> {
        let mut words = Vec::new();
        for question in single.about_all(|kind| self.count(kind), |_| 1) {
            let answer = self.answer(question)?;
            words.push(answer.len() as u32);
            words.extend(answer);
        }
        Some(words)
    }
}

#[cfg(test)]
mod tests {
    use super::*;
    use sir_questions::{AllocId, LocalId};

    /// The flags are left out of each record, and of nothing else.
    #[test]
    fn records_without_flags() {
        let (first, second) = ([0, 1, 2, 0, 32, 0, 1, 5, 0], [0, 2, 3, 0, 32, 1, 0, 0, 1, 7, 8, 9]);
        let (short, other) = ([0, 1, 2, 0, 32, 0, 1, 0], [0, 2, 3, 0, 32, 1, 0, 1, 7, 8, 9]);
        assert_eq!(without_flags(Question::Allocation(AllocId(0)), first.to_vec()), short);
        assert_eq!(without_flags(Question::Allocation(AllocId(1)), second.to_vec()), other);
        let all = [&[9], first.as_slice(), &[12], &second].concat();
        assert_eq!(without_flags(Question::AllAllocations, all), [&[8], short.as_slice(), &[11], &other].concat());
        assert_eq!(without_flags(Question::AllAllocations, Vec::new()), []);
        for question in [Question::Uses(LocalId(0)), Question::AllUses, Question::Records] {
            assert_eq!(without_flags(question, second.to_vec()), second);
        }
    }
}
