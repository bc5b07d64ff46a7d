//! What can be asked about an image, why a question is refused, and what marked an allocation: the ids, the questions, the
//! refusals and the causes of marks, each as one table.
//!
//! The bindings, the reference, Plank's analyses, the comparison, the recording and the benchmarks all speak in these
//! terms. A new sort of id, a new question and a new refusal are one line of their table each. What writes an image takes
//! lent records and is no question: [`WRITE`] has its number and its name.
//!
//! ```
//! use sir_questions::{LocalId, Question, Refusal};
//!
//! let question: Question = "uses:4".parse().unwrap();
//! assert_eq!(question, Question::Uses(LocalId(4)));
//! assert_eq!((question.number(), question.ids()), (4, vec![4]));
//! assert_eq!(Refusal::UNKNOWN_ID.to_string(), "refused 13: id asked for not below its count");
//! ```

mod flags;
mod ids;
mod question;
mod refusal;

pub use flags::{Flags, MarkCause};
pub use ids::{AllocId, BlockId, FunctionId, Id, IdKind, LocalId, OpIdx, spread};
pub use question::{Question, QuestionKind, Unknown, WRITE, Writer, function_names};
pub use refusal::{Cause, Refusal};
