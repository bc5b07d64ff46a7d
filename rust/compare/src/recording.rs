//! Recorded calls, as `crates/replay` reads them.
//!
//! A file is made of little-endian 32-bit words and of bytes: the image's length and the number of questions; the image;
//! then for each question its number, how many ids it has, the ids, the length of the result slice, the number and the
//! length that the call is to give, and the bytes that the slice is to hold after it. Where the writer is called, records are
//! lent in place of the image, and its number stands in place of a question's.

use sir_image::pages::to_bytes;
use sir_questions::{Question, WRITE};

/// Each byte of a result slice before the call.
pub const BEFORE: u8 = 165;

/// What is called.
#[derive(Clone, Copy, Debug)]
pub enum Called {
    /// A question about an image.
    Question(Question),
    /// The writer, with lent records.
    Write,
}

impl From<Question> for Called {
    fn from(question: Question) -> Called {
        Called::Question(question)
    }
}

impl Called {
    /// Its number, and the ids that it takes.
    fn numbers(self) -> (u32, Vec<u32>) {
        match self {
            Called::Question(question) => (question.number(), question.ids()),
            Called::Write => (WRITE.number, Vec::new()),
        }
    }
}

/// A call and what it gives.
#[derive(Clone, Debug)]
pub struct Recorded {
    /// What is called.
    pub called: Called,
    /// 0, or the number of the refusal.
    pub number: u32,
    /// The bytes of the answer.
    pub length: usize,
    /// The result slice after the call.
    pub result: Vec<u8>,
}

impl Recorded {
    /// An answer, in a slice with some bytes more.
    pub fn answer(called: impl Into<Called>, mut answer: Vec<u8>, spare: usize) -> Recorded {
        let length = answer.len();
        answer.resize(length + spare, BEFORE);
        Recorded { called: called.into(), number: 0, length, result: answer }
    }

    /// A refusal, with a slice of this length.
    pub fn refusal(called: impl Into<Called>, number: u32, room: usize) -> Recorded {
        Recorded { called: called.into(), number, length: 0, result: vec![BEFORE; room] }
    }

    /// What the reference gives, in a slice of this length.
    pub fn by_reference(called: impl Into<Called>, lent: &[u8], room: usize) -> Recorded {
        let mut result = vec![BEFORE; room];
        let called = called.into();
        let (number, length) = match called {
            Called::Question(question) => paper_reference::call(lent, question, &mut result),
            Called::Write => paper_reference::call_write(lent, &mut result),
        };
        Recorded { called, number, length: length as usize, result }
    }

    fn bytes(&self) -> Vec<u8> {
        let (number, ids) = self.called.numbers();
        let outcome = [self.result.len() as u32, self.number, self.length as u32];
        let words = [&[number, ids.len() as u32], ids.as_slice(), &outcome].concat();
        [to_bytes(&words), self.result.clone()].concat()
    }
}

/// An image and calls about it, or lent records and calls of the writer: a file of `crates/replay`.
#[derive(Clone, Debug)]
pub struct Recording {
    /// The name of the file.
    pub name: String,
    /// The image, or the records.
    pub lent: Vec<u8>,
    /// The calls.
    pub calls: Vec<Recorded>,
}

impl Recording {
    /// The file.
    pub fn bytes(&self) -> Vec<u8> {
        let mut bytes = to_bytes(&[self.lent.len() as u32, self.calls.len() as u32]);
        bytes.extend(&self.lent);
        self.calls.iter().for_each(|call| bytes.extend(call.bytes()));
        bytes
    }
}
