//! The interface without Plank's files: no program can be made.

use crate::Source;
use sir_image::Image;
use sir_questions::IdKind;
use std::convert::Infallible;
use std::marker::PhantomData;

/// Where Plank's files are.
pub const SOURCES: Option<&str> = None;

/// A program in Plank's form.
pub struct Program(Infallible);

/// The analyses of a program.
pub struct Analyses<'a>(Infallible, PhantomData<&'a Program>);

impl Program {
    /// The program of an accepted image, or `None` where Plank's files were missing.
    pub fn new(_image: &Image) -> Option<Program> {
        None
    }

    /// Its analyses by the source, altered or not, none of them run yet.
    pub fn analyses(&self, _source: Source) -> Analyses<'_> {
        match self.0 {}
    }
}

macro_rules! answers {
    ($($name:ident($($id:ident: $of:ty)?) -> $type:ty)*) => {
        #[allow(missing_docs)]
        impl Analyses<'_> {
            $(pub fn $name(&self $(, $id: $of)?) -> $type {
                match self.0 {}
            })*
        }
    };
}

answers! {
    shares_a_base() -> bool
    order() -> Vec<u32>
    predecessors(_block: u32) -> Vec<u32>
    entry_set(_block: u32) -> Vec<u32>
    exit_set(_block: u32) -> Vec<u32>
    uses(_local: u32) -> Vec<u32>
    intervals(_local: u32) -> Vec<u32>
    count(_kind: IdKind) -> u32
    allocation(_allocation: u32) -> Vec<u32>
    owner(_local: u32) -> Vec<u32>
}
