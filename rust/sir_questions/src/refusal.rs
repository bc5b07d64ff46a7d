//! Refusals, by the paper's numbers.

use std::error::Error;
use std::fmt::{self, Display, Formatter};

/// Why a question was refused, by the paper's number.
#[derive(Clone, Copy, Debug, PartialEq, Eq, Hash)]
pub struct Refusal(u32);

/// Who causes a refusal.
#[derive(Clone, Copy, Debug, PartialEq, Eq)]
pub enum Cause {
    /// What carried the image.
    Carriage,
    /// The front end that wrote the image.
    FrontEnd,
    /// The compiler that calls.
    Caller,
}

/// A line of the table.
struct Row {
    refusal: Refusal,
    name: &'static str,
    cause: Cause,
    text: &'static str,
}

macro_rules! refusals {
    ($($number:literal $name:ident $cause:ident $text:literal;)*) => {
        impl Refusal {
            $(
                #[doc = concat!($number, ": ", $text, ".")]
                pub const $name: Refusal = Refusal($number);
            )*

            /// Every refusal, in the sequence in which the rules are asked: the first that applies is given.
            pub const ALL: &[Refusal] = &[$(Refusal::$name),*];
        }

        const TABLE: &[Row] = &[$(Row {
            refusal: Refusal::$name,
            name: stringify!($name),
            cause: Cause::$cause,
            text: $text,
        }),*];
    };
}

// In the sequence in which they are asked, which need not be that of the numbers. `include/sir_analyses.h` has the same
// names and texts in the same sequence; a test of the bindings holds it to this table.
refusals! {
    1 LENGTH Carriage "length 0, not a multiple of 512, or above 59,904 bytes";
    2 PAGE_NUMBER Carriage "some page number wrong";
    3 PAGE_CHECK Carriage "some page check wrong";
    4 EDITION FrontEnd "edition not 1";
    5 COUNT FrontEnd "a count above its limit, or no function, or no block";
    6 PAGE_COUNT FrontEnd "page count not the least that holds the words, or padding not zero; lent records of a wrong length";
    7 UNKNOWN FrontEnd "operation code or control kind unknown, or an unused field not zero";
    8 RANGE FrontEnd "a range with start above end or end above its list, an id not below its count, or static id 4294967295";
    9 OPERAND_COUNT FrontEnd "operand counts wrong for the code";
    10 OUTPUT_COUNT FrontEnd "a block with successors whose output count differs from some successor's input count";
    11 REPEATED_INPUT FrontEnd "one local twice among a block's inputs";
    12 SHARED_BASE FrontEnd "two allocations met in visited blocks with one base local";
    13 UNKNOWN_ID Caller "id asked for not below its count";
    15 NOT_IN_BLOCK Caller "an operation that the named block does not hold";
    14 SHORT_RESULT Caller "result slice shorter than the answer";
}

impl Refusal {
    /// The refusal of a number other than 0, also of one that a later library knows and this table does not.
    pub const fn new(number: u32) -> Refusal {
        Refusal(number)
    }

    /// The refusals that go by the image alone, in the sequence in which they are asked.
    pub fn of_images() -> impl Iterator<Item = Refusal> {
        TABLE.iter().filter(|row| row.cause != Cause::Caller).map(|row| row.refusal)
    }

    /// Those of them that go by the words of the image, from the edition on.
    pub fn of_words() -> impl Iterator<Item = Refusal> {
        Refusal::of_images().skip_while(|&refusal| refusal != Refusal::EDITION)
    }

    /// The paper's number.
    pub const fn number(self) -> u32 {
        self.0
    }

    /// The name of its constant.
    pub fn name(self) -> Option<&'static str> {
        self.row().map(|row| row.name)
    }

    /// Who causes it.
    pub fn cause(self) -> Option<Cause> {
        self.row().map(|row| row.cause)
    }

    /// What is wrong.
    pub fn text(self) -> &'static str {
        self.row().map_or("a rule of a later library", |row| row.text)
    }

    fn row(self) -> Option<&'static Row> {
        TABLE.iter().find(|row| row.refusal == self)
    }
}

impl Display for Refusal {
    fn fmt(&self, f: &mut Formatter<'_>) -> fmt::Result {
        write!(f, "refused {}: {}", self.0, self.text())
    }
}

impl Error for Refusal {}

#[cfg(test)]
mod tests {
    use super::*;

    #[test]
    fn numbers_and_names_are_unique() {
        for (index, refusal) in Refusal::ALL.iter().enumerate() {
            assert!(Refusal::ALL[..index].iter().all(|other| other != refusal && other.name() != refusal.name()));
            assert_ne!(refusal.number(), 0);
        }
    }

    #[test]
    fn texts() {
        assert_eq!(Refusal::EDITION.to_string(), "refused 4: edition not 1");
        assert_eq!(Refusal::new(99).to_string(), "refused 99: a rule of a later library");
    }
}
