//! Plank's crate `plank_core`, as far as its files are at hand.
//!
//! Shims: this root, for the `lib.rs` that is not among the files, and `shims/idx_slice.rs`.
#![cfg_attr(plank_sources, allow(missing_docs, clippy::all))]

#[cfg(plank_sources)]
extern crate plank_outside as allocator_api2;

#[cfg(plank_sources)]
include!(concat!(env!("OUT_DIR"), "/src/modules.rs"));

#[cfg(plank_sources)]
pub use self::{
    dense_index_map::DenseIndexMap,
    dense_index_set::DenseIndexSet,
    index::Idx,
    index_vec::{IndexSlice, IndexVec, RelSlice, RelSliceMut},
    span::{IncIterable, Span},
};
