//! What the comparison, the benchmark and the list of answers share.

pub mod cases;
pub mod changes;
pub mod edges;
pub mod library;
pub mod original;
pub mod random;
