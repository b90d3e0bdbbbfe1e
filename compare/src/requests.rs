//! The comparison of requests 9, 11, 12 and 14 and of the quick questions: each function beside the independent reader, on generated deliveries, damaged tables and damaged
//! indexes. What a call reads and writes stands at the edge of pages that nobody may touch (`edge`).
//!
//! A case is a seed and an index, and depends on nothing before it, as in `differ`.

pub mod boards;
pub mod connections;
pub mod indexes;
pub mod isolation;
mod possible;
pub mod quick;
mod tables;
mod turn;
pub mod writes;

pub use turn::{case, run, Counts, Difference, Turn};
