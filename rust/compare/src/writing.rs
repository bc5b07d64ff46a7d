//! Images written back from their records, and lent records: the library's writer against the paper's.

use crate::sides::{Disagreement, LIBRARY, agree, filled, words_of};
use crate::tally::Tally;
use image_gen::{Rng, known, lent};
use sir_analyses::{Answer, calls};
use sir_image::Image;
use sir_image::pages::to_bytes;
use sir_questions::{Question, Refusal, WRITE};
use std::fmt::{self, Display, Formatter};

/// So many records are made from those of each image.
const LENT: usize = 4;

/// Compares what is written of the records of an image, which is the image where no rule refuses it, and of records that are
/// made from them.
pub fn with_library(image: &Image, tally: &mut Tally) -> Result<(), Disagreement> {
    let records = to_bytes(&image.words());
    if let Ok(written) = same_writing(&records, tally)? {
        agree(Shown(&records), words_of(&written), "builder", words_of(&image.pages()))?;
        tally.writing.images += 1;
    }
    let rng = &mut Rng::new(seed(&records));
    for _ in 0..LENT {
        _ = same_writing(&lent(image, rng), tally)?;
    }
    Ok(())
}

/// Compares what is written of records that are known by name.
pub fn known_with_library(tally: &mut Tally) -> Result<(), Disagreement> {
    for lent in known() {
        let written = same_writing(&lent.records, tally)?;
        agree(lent.name, lent.number, "paper", written.err().unwrap_or(0))?;
    }
    Ok(())
}

/// A seed of the records, so that the same ones are made of an image whenever it is looked at.
fn seed(records: &[u8]) -> u64 {
    records.iter().fold(0, |seed, &byte| (seed ^ u64::from(byte)).wrapping_mul(0x100_0000_01b3))
}

/// Pages, or the number of a refusal.
type Written = Result<Vec<u8>, u32>;

/// Compares what is written of lent records: number, length and every byte of result slices that are just long enough, longer,
/// one byte too short and empty. What is written is read again, and has these records.
fn same_writing(records: &[u8], tally: &mut Tally) -> Result<Written, Disagreement> {
    let paper = paper_reference::write(records);
    let turn = tally.writing.note(records, &paper);
    let rooms = match &paper {
        Ok(pages) => vec![pages.len(), pages.len() + [1, 7, 64][turn % 3], pages.len() - 1, 0],
        Err(_) => vec![[0, 3, 32][turn % 3], 600],
    };
    for room in rooms {
        let what = Shown(records);
        let (stated, expected) = stated(&paper, room);
        let mut result = filled(room);
        agree(format_args!("{what} in {room} bytes"), stated, LIBRARY, calls::write(records, &mut result))?;
        if result != expected {
            agree(format_args!("{what}, words"), words_of(&expected), LIBRARY, words_of(&result))?;
            agree(format_args!("{what}, bytes"), expected, LIBRARY, result)?;
        }
    }
    if let Ok(pages) = &paper {
        read_again(records, pages)?;
    }
    Ok(paper)
}

/// What a call with a slice of this length is to give, and how it is to leave the slice.
fn stated(paper: &Written, room: usize) -> (Answer, Vec<u8>) {
    let mut result = filled(room);
    let number = match paper {
        Ok(pages) if pages.len() <= room => {
            result[..pages.len()].copy_from_slice(pages);
            return (Answer { number: 0, length: pages.len() as u64 }, result);
        }
        Ok(_) => Refusal::SHORT_RESULT.number(),
        Err(number) => *number,
    };
    (Answer { number, length: 0 }, result)
}

/// The library takes pages that were written, and gives the records of which they were.
fn read_again(records: &[u8], pages: &[u8]) -> Result<(), Disagreement> {
    let mut result = vec![0; records.len()];
    let given = calls::ask(Question::Records, pages, &mut result);
    let what = Shown(records);
    agree(format_args!("read again, {what}"), Answer { number: 0, length: records.len() as u64 }, LIBRARY, given)?;
    agree(format_args!("records of {what}"), words_of(records), LIBRARY, words_of(&result))
}

/// Lent records as words, and the bytes that are left.
struct Shown<'a>(&'a [u8]);

impl Display for Shown<'_> {
    fn fmt(&self, f: &mut Formatter<'_>) -> fmt::Result {
        let Shown(records) = self;
        write!(f, "{} of words {:?} and bytes {:?}", WRITE.name, words_of(records), records.as_chunks::<4>().1)
    }
}
