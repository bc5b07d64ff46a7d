//! Stands for `builder.rs`, which no analysis uses.
