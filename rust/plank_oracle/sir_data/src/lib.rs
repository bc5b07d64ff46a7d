//! Plank's crate `sir_data`: its own `lib.rs` and `view.rs`.
//!
//! Shims: `shims/index.rs`, `shims/operation.rs` and `shims/builder.rs`, for the modules that are not among the files.
#![cfg_attr(plank_sources, allow(missing_docs, clippy::all))]

#[cfg(plank_sources)]
extern crate plank_outside as alloy_primitives;
#[cfg(plank_sources)]
extern crate plank_outside as plank_test_utils;
#[cfg(plank_sources)]
extern crate plank_outside as pretty_assertions;

#[cfg(plank_sources)]
include!(concat!(env!("OUT_DIR"), "/src/lib.rs"));
