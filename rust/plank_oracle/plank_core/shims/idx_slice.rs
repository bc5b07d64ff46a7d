//! Stands for `index_vec/idx_slice.rs`. No analysis makes such a slice.

use crate::Idx;
use std::marker::PhantomData;

/// A slice with typed indices.
pub struct IndexSlice<I: Idx, T> {
    _index: PhantomData<(I, T)>,
}

impl<I: Idx, T> IndexSlice<I, T> {
    /// Not called by what is compiled here.
    pub fn from_raw(_raw: &[T]) -> &Self {
        unreachable!("no analysis makes an IndexSlice")
    }
}
