//! The sides that are compared, and what differs between them.

use crate::tally::Tally;
use crate::writing;
use paper_reference::Reference;
use plank_oracle::{Program, Source, without_flags};
use sir_analyses::{Answer, calls};
use sir_image::Image;
use sir_questions::{Cause, IdKind, Question, QuestionKind, Refusal, spread};
use std::fmt::{self, Debug, Display, Formatter};

/// Two sides that answer differently.
#[derive(Clone, Debug)]
pub struct Disagreement {
    question: String,
    paper: String,
    other: String,
    name: &'static str,
}

impl Display for Disagreement {
    fn fmt(&self, f: &mut Formatter<'_>) -> fmt::Result {
        let Disagreement { question, paper, other, name } = self;
        write!(f, "{question}\npaper: {paper}\n{name}: {other}")
    }
}

/// The name of the side that is Plank altered.
pub const PLANK: &str = "Plank";
/// The name of the side that is Plank as it is.
pub const UNALTERED: &str = "Plank unaltered";
pub(crate) const LIBRARY: &str = "library";

pub(crate) fn agree<T: Debug + PartialEq>(
    question: impl Display,
    paper: T,
    name: &'static str,
    other: T,
) -> Result<(), Disagreement> {
    if paper == other {
        return Ok(());
    }
    let question = question.to_string();
    Err(Disagreement { question, paper: format!("{paper:?}"), other: format!("{other:?}"), name })
}

/// Compares the paper's answers with those of Plank altered, all that Plank has, on an image that it takes: records of
/// allocations but for their flags.
pub fn with_plank(image: &Image, tally: &mut Tally) -> Result<(), Disagreement> {
    with_source(Source::Altered, PLANK, image, Reference::new(&image.pages()), tally)
}

/// The same with Plank as it is, where no topic of a log is a pointer; an image that has one is left out.
pub fn with_plank_unaltered(image: &Image, tally: &mut Tally) -> Result<(), Disagreement> {
    let paper = Reference::new(&image.pages());
    if paper.as_ref().is_ok_and(|paper| paper.pointers_in_logs().into_iter().any(|position| position >= 2)) {
        tally.left_out += 1;
        return Ok(());
    }
    with_source(Source::Unaltered, UNALTERED, image, paper, tally)
}

fn with_source(
    source: Source,
    name: &'static str,
    image: &Image,
    paper: Result<Reference, u32>,
    tally: &mut Tally,
) -> Result<(), Disagreement> {
    let program = Program::new(image).expect("Plank's files are there");
    let plank = program.analyses(source);
    tally.images += 1;
    let refused = paper.as_ref().err().copied().unwrap_or(0);
    agree("refusal", refused, name, if plank.shares_a_base() { Refusal::SHARED_BASE.number() } else { 0 })?;
    let Ok(paper) = paper else {
        tally.refused += 1;
        return Ok(());
    };
    tally.logs.note(&paper);
    tally.flags.note(&paper);
    agree("number of allocations", paper.count(IdKind::Allocation), name, plank.count(IdKind::Allocation))?;
    for question in all_questions(&paper).filter(|question| !question.kind().is_text()) {
        let said = paper.bytes(question);
        tally.note(&paper, question, said.as_deref().map_err(|&number| number));
        if let Some(other) = plank.answer(question) {
            let answer = said.expect("the ids are below their counts");
            tally.compared(question, &answer);
            agree(question, without_flags(question, words_of(&answer)), name, other)?;
        }
    }
    Ok(())
}

/// The most questions of a kind about two ids that are put about one image.
const PAIRS: u32 = 1024;

/// The questions about every id of an image; about two ids, every pair or a choice of pairs.
fn all_questions(paper: &Reference) -> impl Iterator<Item = Question> {
    Question::KINDS.iter().flat_map(|kind| questions(paper, kind, |_| 1, PAIRS))
}

/// The questions of a kind about the ids of an image that are a step apart, which may depend on their count. Questions about
/// two ids are at most so many: about every pair where there are no more, else about a choice of pairs.
pub fn questions(paper: &Reference, kind: &QuestionKind, step: impl Fn(u32) -> u32, pairs: u32) -> Vec<Question> {
    let &[first, second] = kind.ids else { return kind.about_all(|id| paper.count(id), step) };
    let count = paper.count(first);
    if count * paper.count(second) <= pairs {
        return kind.about_all(|id| paper.count(id), |_| 1);
    }
    let firsts: Vec<u32> = (0..count).step_by(step(count).max(1) as usize).collect();
    let each = pairs / firsts.len() as u32;
    kind.about_each(|_, before| match *before {
        [] => spread(&firsts, pairs, 0),
        [id, ..] => some_partners(paper, (first, id), second, each.max(1)),
    })
}

/// At most so many ids of a sort for one before them: three of four, or as many as there are, of those that go with it, and
/// one of four of any. Where both are of one sort the id itself is among them.
fn some_partners(paper: &Reference, (of, id): (IdKind, u32), kind: IdKind, most: u32) -> Vec<u32> {
    let any: Vec<u32> = (0..paper.count(kind)).collect();
    let itself = (of == kind).then_some(id);
    let rest = most - itself.iter().count() as u32;
    let own = spread(&paper.partners((of, id), kind), rest - rest / 4, id);
    let mut some = [own, spread(&any, rest / 4, id + 1)].concat();
    some.extend(itself);
    some.sort_unstable();
    some.dedup();
    some
}

/// Questions of a kind with an id that is not below its count: the count itself, or the largest number, by turns.
pub fn unknown(paper: &Reference, kind: &QuestionKind, turn: usize) -> Vec<Question> {
    kind.about_unknown(|id| [paper.count(id), u32::MAX][turn % 2])
}

/// Compares the paper's answers with those of the linked library: number, length and every byte of the result slice,
/// for every id, one id too many, pairs of ids, and result slices that are just long enough, longer, and too short. The image is
/// written back from its records too, and records that are made from them are lent.
pub fn with_library(image: &Image, tally: &mut Tally) -> Result<(), Disagreement> {
    let bytes = image.pages();
    tally.images += 1;
    writing::with_library(image, tally)?;
    let paper = match Reference::new(&bytes) {
        Ok(paper) => paper,
        Err(_) => return refused_alike(&bytes, tally),
    };
    tally.logs.note(&paper);
    tally.flags.note(&paper);
    for question in all_questions(&paper) {
        same_answer(&paper, &bytes, question, tally)?;
    }
    for kind in Question::KINDS {
        let turn = tally.answers as usize + kind.number as usize;
        for question in unknown(&paper, kind, turn) {
            same_refusal(turn / 2, &bytes, question, Refusal::UNKNOWN_ID.number())?;
        }
    }
    Ok(())
}

/// The same for some ids only, which is enough where one answer takes long; a question for all ids takes them all.
pub fn with_library_sparsely(image: &Image, tally: &mut Tally) -> Result<(), Disagreement> {
    let bytes = image.pages();
    tally.images += 1;
    writing::with_library(image, tally)?;
    let paper = Reference::new(&bytes).expect("an accepted image");
    tally.logs.note(&paper);
    tally.flags.note(&paper);
    for question in Question::KINDS.iter().flat_map(|kind| questions(&paper, kind, |count| count / 3, 16)) {
        same_answer(&paper, &bytes, question, tally)?;
    }
    Ok(())
}

/// The longest result slice, in bytes: as much as the longest chart takes. On the slowest images other answers can be longer than
/// any memory.
const LONGEST: usize = 86_408_640;

fn same_answer(paper: &Reference, image: &[u8], question: Question, tally: &mut Tally) -> Result<(), Disagreement> {
    let answer = match paper.bytes_within(question, LONGEST) {
        Ok(answer) => answer,
        Err(number) if number == Refusal::SHORT_RESULT.number() => {
            return same_refusal_in(LONGEST, image, question, number);
        }
        Err(number) => {
            tally.note(paper, question, Err(number));
            return same_refusal(tally.open.not_held as usize, image, question, number);
        }
    };
    tally.note(paper, question, Ok(&answer));
    tally.compared(question, &answer);
    // Some bytes more than the answer needs, or none.
    let spare = [0, 1, 7, 64][tally.answers as usize % 4];
    let mut result = filled(answer.len() + spare);
    let mut expected = result.clone();
    expected[..answer.len()].copy_from_slice(&answer);
    let given = calls::ask(question, image, &mut result);
    agree(question, Answer { number: 0, length: answer.len() as u64 }, LIBRARY, given)?;
    if result != expected {
        if question.kind().is_text() {
            agree(question, Text(&expected), LIBRARY, Text(&result))?;
        } else {
            agree(question, words_of(&expected), LIBRARY, words_of(&result))?;
        }
        agree(format_args!("{question}, bytes"), expected, LIBRARY, result)?;
    }
    if let Some(most) = answer.len().checked_sub(1) {
        let short = [most, most / 2, 0][tally.answers as usize % 3];
        same_refusal_in(short, image, question, Refusal::SHORT_RESULT.number())?;
    }
    Ok(())
}

/// Text, of which the lines are shown that are no filling; what is no text stands as it can.
#[derive(PartialEq)]
struct Text<'a>(&'a [u8]);

impl Debug for Text<'_> {
    fn fmt(&self, f: &mut Formatter<'_>) -> fmt::Result {
        let text = String::from_utf8_lossy(self.0);
        text.lines().filter(|line| !line.trim().is_empty()).try_for_each(|line| write!(f, "\n{line:?}"))
    }
}

/// The words of an answer.
pub fn words_of(bytes: &[u8]) -> Vec<u32> {
    bytes.as_chunks().0.iter().map(|&word| u32::from_le_bytes(word)).collect()
}

/// Bytes to begin with, so that one that is written is seen.
pub(crate) fn filled(length: usize) -> Vec<u8> {
    (0..length).map(|at| (at % 251) as u8 ^ 0xa5).collect()
}

/// A refusal that comes before 14: in a slice that is too short for one word, in an empty one, or in a longer one, by turns.
fn same_refusal(turn: usize, image: &[u8], question: Question, number: u32) -> Result<(), Disagreement> {
    same_refusal_in([3, 0, 32][turn % 3], image, question, number)
}

/// The same with a result slice of this length.
fn same_refusal_in(room: usize, image: &[u8], question: Question, number: u32) -> Result<(), Disagreement> {
    let mut result = filled(room);
    let given = calls::ask(question, image, &mut result);
    let what = format!("{question} in {room} bytes");
    agree(&what, Answer { number, length: 0 }, LIBRARY, given)?;
    agree(&what, filled(room), LIBRARY, result)
}

/// Compares the refusal of an image that may break any rule, by all questions.
pub fn refused_alike(image: &[u8], tally: &mut Tally) -> Result<(), Disagreement> {
    let number = paper_reference::refusal(image);
    tally.refused += u64::from(number != 0);
    for question in Question::KINDS.iter().map(QuestionKind::about_zeros) {
        if number != 0 {
            same_refusal(tally.refused as usize, image, question, number)?;
        } else {
            let given = calls::ask(question, image, &mut []).number;
            let accepted = given == 0 || Refusal::new(given).cause() == Some(Cause::Caller);
            agree(format_args!("{question}, the image accepted"), true, LIBRARY, accepted)?;
        }
    }
    Ok(())
}
