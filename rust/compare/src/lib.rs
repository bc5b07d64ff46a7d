//! What the comparison and the recording of answers share.

pub mod recording;
pub mod shrink;
pub mod sides;
pub mod tally;
pub mod text;
pub mod writing;
