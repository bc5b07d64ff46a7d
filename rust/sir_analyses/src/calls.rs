//! The questions as the library takes them: image, ids, result slice; and [`write`](write()), which takes lent records, no ids and
//! a result slice.
//!
//! Success gives number 0 and the answer's length in bytes; the answer stands at the front of the slice as little-endian
//! 32-bit words, that of [`chart`] as text, and bytes past it stay. A refusal gives its number and length 0, and the result
//! slice keeps its bytes. Of several refusals that apply the first in the sequence of [`Refusal::ALL`] is given; the writer
//! has a sequence of its own.
//!
//! The C functions are declared as in `include/sir_analyses.h`, each as the function here after `sir_`.
#![cfg_attr(sir_linked, allow(unsafe_code))]

use sir_questions::*;

/// What a call gives: a number, 0 for success, and the length of the answer in bytes.
#[repr(C)]
#[derive(Clone, Copy, Debug, PartialEq, Eq)]
pub struct Answer {
    /// 0, or the number of the refusal.
    pub number: u32,
    /// The bytes of the answer; 0 for a refusal.
    pub length: u64,
}

impl Answer {
    /// The length of the answer, or the refusal.
    pub fn length(self) -> Result<u64, Refusal> {
        match self.number {
            0 => Ok(self.length),
            number => Err(Refusal::new(number)),
        }
    }
}

/// A function of the library: what is lent, ids, result slice. Declared where there is a library, and wrapped in a safe one.
macro_rules! function {
    ($(#[$doc:meta])* $name:ident($lent:ident $(, $id:ident: $type:ident)*)) => {
        $(#[$doc])*
        #[cfg(sir_linked)]
        pub fn $name($lent: &[u8], $($id: $type,)* result: &mut [u8]) -> Answer {
            unsafe extern "C" {
                #[link_name = concat!("sir_", stringify!($name))]
                fn linked($lent: *const u8, length: usize, $($id: $type,)* result: *mut u8, room: usize) -> Answer;
            }
            // Safety: the function reads the bytes of one slice and writes bytes of the other, both lent for the
            // time of the call and apart from each other, and asks nothing else of its caller.
            unsafe { linked($lent.as_ptr(), $lent.len(), $($id,)* result.as_mut_ptr(), result.len()) }
        }

        $(#[$doc])*
        #[cfg(not(sir_linked))]
        pub fn $name($lent: &[u8], $($id: $type,)* result: &mut [u8]) -> Answer {
            let _ = ($lent, $($id,)* result);
            panic!("there was no library when this was built: run tools/staticlib, then build again")
        }
    };
}

/// The functions of the questions.
macro_rules! functions {
    ($(
        $(#[$doc:meta])*
        $number:literal $question:ident $(($($id:ident: $type:ident),+))? $(of $one:ident)? = $name:ident $(as $form:ident)?;
    )*) => {
        /// Puts any question.
        pub fn ask(question: Question, image: &[u8], result: &mut [u8]) -> Answer {
            match question {
                $(Question::$question $(($($id),+))? => self::$name(image, $($($id,)+)? result),)*
            }
        }

        $(function! { $(#[$doc])* $name(image $($(, $id: $type)+)?) })*
    };
}

sir_questions::questions!(functions);

function! {
    /// The pages of lent records: payload words without padding, four bytes each. The least number of pages that holds them,
    /// with zeros past them.
    ///
    /// Refused with 6 for fewer than 9 words and for a length that is no whole number of words; then by 4 and 5; with 6 where
    /// the counts call for another number of words; then by 7 to 12, as an image is; then with 14.
    write(records)
}
