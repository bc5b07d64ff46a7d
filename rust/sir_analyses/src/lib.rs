//! Safe bindings to the proved analyses of SIR images.
//!
//! Each question can be put in two ways. A function of [`calls`] takes the image, the ids that the question is about and a
//! result slice and gives what the C function gives: a number and a length, the answer's bytes in the slice;
//! [`calls::ask`] does so for any [`Question`]. A function of this module takes the image and the ids, lends as much memory
//! as the answer needs, and gives the answer decoded, or the [`Refusal`].
//!
//! A question about one id has a form for all ids, as [`all_uses`] for [`uses`]: one call, which reads the image once and gives
//! the answers for ids 0, 1, .. in turn. Questions about two ids, [`open`] and [`crossing`], have none.
//!
//! [`records`] takes an image apart, and [`write`](write()) puts one together. [`chart`] draws the lifetimes, as text.
//!
//! ```no_run
//! use sir_analyses::BlockId;
//!
//! # fn main() -> Result<(), Box<dyn std::error::Error>> {
//! let image = std::fs::read("typical.img")?;
//! for function in sir_analyses::order(&image)? {
//!     println!("{:?}: {:?}", function.function, function.blocks);
//! }
//! for (number, allocation) in sir_analyses::all_allocations(&image)?.iter().enumerate() {
//!     println!("allocation {number}: {:?}", allocation.intervals);
//! }
//! println!("live at the end of block 0: {:?}", sir_analyses::exit_set(&image, BlockId(0))?);
//! # Ok(())
//! # }
//! ```
//!
//! # What lifetimes say
//!
//! Lifetimes hold within a function: a walk follows successor edges from a function's entry and takes a call as one step, so
//! where two unmarked allocations do not cross ([`crossing`]), no run of a function awaits reads of both at once, and the two
//! may share a place in that function's frame, provided that neither is open at the operation that makes the other
//! ([`open`]): that operation may clear the buffer's bytes, also where the buffer's intervals begin later or are none.
//!
//! ```no_run
//! use sir_analyses::{AllocId, Crossing, Refusal};
//!
//! /// Whether an allocation is open at the operation that makes another one.
//! fn open_where_made(image: &[u8], made: AllocId, other: AllocId) -> Result<bool, Refusal> {
//!     let made = sir_analyses::allocation(image, made)?;
//!     Ok(sir_analyses::open(image, made.block, made.operation)?.contains(&other))
//! }
//!
//! /// Whether two allocations of one function may have the same place in its frame, and why not.
//! fn may_share(image: &[u8], one: AllocId, other: AllocId) -> Result<String, Refusal> {
//!     Ok(match sir_analyses::crossing(image, one, other)? {
//!         Crossing::Marked => "no: one of them is never free".to_string(),
//!         Crossing::At(block, operation) => format!("no: both are in use at operation {} of block {}", operation.0, block.0),
//!         Crossing::Never if open_where_made(image, one, other)? || open_where_made(image, other, one)? => {
//!             "no: one of them is made while the other is in use".to_string()
//!         }
//!         Crossing::Never => "yes".to_string(),
//!     })
//! }
//! ```
//!
//! `examples/ask.rs` looks for all such pairs, by the intervals of all allocations. Nothing follows for a caller and its
//! callee, whose buffers are never both in one walk: a buffer that lives across a call and a buffer of the callee must not
//! share memory, whatever their intervals say.
//!
//! # To change an image
//!
//! The records of an image are its payload words without padding, as docs/FORMAT.md lays them out and `rust/sir_image` reads
//! them. Written back as they are they give the image that was read, byte for byte; after a change they give an image of as
//! many pages as they need, with checks of its own, or the number by which an image with these records is refused.
//!
//! ```no_run
//! use sir_image::Image;
//!
//! # fn main() -> Result<(), Box<dyn std::error::Error>> {
//! let image = std::fs::read("typical.img")?;
//! let mut records = sir_analyses::records(&image)?;
//! assert_eq!(sir_analyses::write(&records)?, image);
//!
//! records[0] = 2;
//! assert_eq!(sir_analyses::write(&records), Err(sir_analyses::Refusal::EDITION));
//! records[0] = 1;
//!
//! let mut program = Image::from_words(&records).expect("accepted records");
//! program.locals += 1;
//! std::fs::write("one_local_more.img", sir_analyses::write(&program.words())?)?;
//! # Ok(())
//! # }
//! ```
//!
//! # How long an answer may be
//!
//! Operations and operands may be shared by many blocks, so an answer may be far longer than the image: a legal image has one
//! local with 2^30 uses, which take 12 GiB. The functions of this module lend whatever is needed. Where an image comes from
//! elsewhere, call [`calls`] with a slice of a length of your choice: a longer answer is refused with 14.
//!
//! # The library
//!
//! The library is `libsir_capi.a` of the repository's `target/staticlib`, which `tools/staticlib` builds, or of the
//! folder that the environment variable `SIR_ANALYSES_LIB` names. Where that variable is not set and there is none, this
//! crate builds without it: [`LINKED`] is false, and every question panics.

mod answers;
pub mod calls;

pub use answers::{Allocation, Crossing, End, FunctionBlocks, Interval, Place, Size, Start, Use};
pub use calls::Answer;
pub use sir_questions::{AllocId, BlockId, Cause, Flags, FunctionId, LocalId, MarkCause, OpIdx, Question, Refusal};

/// Whether the library was there when this was built.
pub const LINKED: bool = cfg!(sir_linked);

/// Where it was.
pub const LIBRARY: Option<&str> = option_env!("SIR_LIBRARY");

/// The functions of the order, with their blocks.
pub fn order(image: &[u8]) -> Result<Vec<FunctionBlocks>, Refusal> {
    Ok(answers::order(&words(image, Question::Order)?))
}

/// The passes of liveness, the one that added nothing included.
pub fn rounds(image: &[u8]) -> Result<u32, Refusal> {
    Ok(words(image, Question::Rounds)?[0])
}

/// The predecessors of a block, repeats kept.
pub fn predecessors(image: &[u8], block: BlockId) -> Result<Vec<BlockId>, Refusal> {
    Ok(answers::ids(&words(image, Question::Predecessors(block))?))
}

/// The locals that are live at the entry of a block, ascending.
pub fn entry_set(image: &[u8], block: BlockId) -> Result<Vec<LocalId>, Refusal> {
    Ok(answers::ids(&words(image, Question::EntrySet(block))?))
}

/// The locals that are live at the exit of a block, ascending.
pub fn exit_set(image: &[u8], block: BlockId) -> Result<Vec<LocalId>, Refusal> {
    Ok(answers::ids(&words(image, Question::ExitSet(block))?))
}

/// The uses of a local.
pub fn uses(image: &[u8], local: LocalId) -> Result<Vec<Use>, Refusal> {
    Ok(answers::uses(&words(image, Question::Uses(local))?))
}

/// The intervals of a local.
pub fn intervals(image: &[u8], local: LocalId) -> Result<Vec<Interval>, Refusal> {
    Ok(answers::intervals(&words(image, Question::Intervals(local))?))
}

/// The allocation that owns a local, if any.
pub fn owner(image: &[u8], local: LocalId) -> Result<Option<AllocId>, Refusal> {
    Ok(answers::owner(&words(image, Question::Owner(local))?))
}

/// An allocation. Where it is marked, [`Allocation::causes`] tells why.
pub fn allocation(image: &[u8], allocation: AllocId) -> Result<Allocation, Refusal> {
    Ok(answers::allocation(&words(image, Question::Allocation(allocation))?))
}

/// The allocations that are open at an operation of a block: the unmarked ones with an interval over it, ascending. Both ends
/// of an interval belong to it. A marked allocation is never among them, though its memory is never free; in a block that is
/// not visited there are none.
///
/// Refused with [`Refusal::NOT_IN_BLOCK`] where the operation is not in the block's own range.
pub fn open(image: &[u8], block: BlockId, operation: OpIdx) -> Result<Vec<AllocId>, Refusal> {
    Ok(answers::ids(&words(image, Question::Open(block, operation))?))
}

/// Whether two allocations cross, and the first operation that lies in intervals of both. An unmarked allocation crosses
/// itself where some operation lies in its intervals, and not where it has none.
pub fn crossing(image: &[u8], one: AllocId, other: AllocId) -> Result<Crossing, Refusal> {
    Ok(answers::crossing(&words(image, Question::Crossing(one, other))?))
}

/// The records of the image: its payload words without padding.
pub fn records(image: &[u8]) -> Result<Vec<u32>, Refusal> {
    words(image, Question::Records)
}

/// The chart for the review sheet: lines of 72 characters, each ended by a line feed, on sheets of 60 lines.
///
/// Allocations stand in series of 64, as many as there are needed and at least one. A series shows all visited blocks, in the
/// sequence of the order: a heading, `block` and the id, and a line for each operation of the block's own range, with the
/// operation in columns 1 to 5, to the right, a column for each allocation of the series from column 7 on, bars in columns 6 and
/// 71, and `c` in column 72 where it is a call. Blank lines fill its last sheet.
///
/// | mark | at an operation |
/// |---|---|
/// | `*` | the allocation is marked |
/// | `#` | the operation lies in one of its intervals: the allocation is open there ([`open`]) |
/// | `.` | neither; or there is no such allocation |
///
/// ```no_run
/// # fn main() -> Result<(), Box<dyn std::error::Error>> {
/// let chart = sir_analyses::chart(&std::fs::read("typical.img")?)?;
/// for (number, sheet) in chart.as_bytes().chunks(60 * 73).enumerate() {
///     std::fs::write(format!("sheet {number}"), sheet)?;
/// }
/// # Ok(())
/// # }
/// ```
///
/// A chart may have 86,408,640 bytes, and never has more.
pub fn chart(image: &[u8]) -> Result<String, Refusal> {
    // Three times four times as much is room for any chart.
    let bytes = bytes(MOST_OF_A_CHART / 64, |result| calls::chart(image, result))?;
    Ok(String::from_utf8(bytes).expect("a chart is text"))
}

/// The pages of records, which are payload words without padding: an image that is accepted and that has these records.
///
/// Refused as an image with these records is, by the first that applies of [`Refusal::EDITION`] and the refusals after it up
/// to [`Refusal::SHARED_BASE`]; with [`Refusal::PAGE_COUNT`] where the counts call for another number of words, and before all
/// others where there are fewer than 9.
pub fn write(records: &[u32]) -> Result<Vec<u8>, Refusal> {
    let records: Vec<u8> = records.iter().flat_map(|word| word.to_le_bytes()).collect();
    bytes(MOST_BYTES, |result| calls::write(&records, result))
}

/// The predecessors of every block, repeats kept.
pub fn all_predecessors(image: &[u8]) -> Result<Vec<Vec<BlockId>>, Refusal> {
    all(image, Question::AllPredecessors, answers::ids)
}

/// The locals that are live at the entry of each block, ascending.
pub fn all_entry_sets(image: &[u8]) -> Result<Vec<Vec<LocalId>>, Refusal> {
    all(image, Question::AllEntrySets, answers::ids)
}

/// The locals that are live at the exit of each block, ascending.
pub fn all_exit_sets(image: &[u8]) -> Result<Vec<Vec<LocalId>>, Refusal> {
    all(image, Question::AllExitSets, answers::ids)
}

/// The uses of every local.
pub fn all_uses(image: &[u8]) -> Result<Vec<Vec<Use>>, Refusal> {
    all(image, Question::AllUses, answers::uses)
}

/// The intervals of every local.
pub fn all_intervals(image: &[u8]) -> Result<Vec<Vec<Interval>>, Refusal> {
    all(image, Question::AllIntervals, answers::intervals)
}

/// The allocation that owns each local, if any.
pub fn all_owners(image: &[u8]) -> Result<Vec<Option<AllocId>>, Refusal> {
    all(image, Question::AllOwners, answers::owner)
}

/// All allocations.
pub fn all_allocations(image: &[u8]) -> Result<Vec<Allocation>, Refusal> {
    all(image, Question::AllAllocations, answers::allocation)
}

/// The answers for all ids, decoded.
fn all<T>(image: &[u8], question: Question, answer: impl Fn(&[u32]) -> T) -> Result<Vec<T>, Refusal> {
    Ok(answers::each(&words(image, question)?, answer))
}

/// The most bytes of an image, and so of its records.
const MOST_BYTES: usize = 59_904;

/// The most bytes of a chart: eight series of 256 blocks, one of which has 449 allocations and 575 other operations, and all
/// others these 575. An allocation is in the range of one visited block alone.
const MOST_OF_A_CHART: usize = 86_408_640;

/// The words of an answer.
fn words(image: &[u8], question: Question) -> Result<Vec<u32>, Refusal> {
    // Answers for all ids are long, and a slice that is too short costs a whole call.
    let first = match question {
        Question::Records => MOST_BYTES,
        _ if question.kind().single().is_some() => 1 << 18,
        _ => 1 << 12,
    };
    let bytes = bytes(first, |result| calls::ask(question, image, result))?;
    Ok(bytes.as_chunks().0.iter().map(|&word| u32::from_le_bytes(word)).collect())
}

/// The bytes of an answer. Since a short slice is refused without telling what would do, more is lent until it does.
fn bytes(first: usize, call: impl Fn(&mut [u8]) -> Answer) -> Result<Vec<u8>, Refusal> {
    let mut result = vec![0; first];
    loop {
        match call(&mut result).length() {
            Ok(length) => {
                result.truncate(length as usize);
                return Ok(result);
            }
            Err(Refusal::SHORT_RESULT) => result = vec![0; 4 * result.len()],
            Err(refusal) => return Err(refusal),
        }
    }
}

#[cfg(test)]
mod tests {
    use super::*;

    /// A slice is made longer until the answer has room, and other refusals are told.
    #[test]
    fn bytes_of_an_answer() {
        let answered = bytes(1 << 12, |result| match result.get_mut(..20_000) {
            Some(part) => {
                part.fill(1);
                Answer { number: 0, length: 20_000 }
            }
            None => Answer { number: 14, length: 0 },
        });
        assert_eq!(answered, Ok(vec![1; 20_000]));
        assert_eq!(bytes(1 << 12, |_| Answer { number: 13, length: 0 }), Err(Refusal::UNKNOWN_ID));
        assert_eq!(bytes(1 << 12, |_| Answer { number: 0, length: 0 }), Ok(vec![]));
    }
}
