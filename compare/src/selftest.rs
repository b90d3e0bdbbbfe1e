//! The reader held against document 01's checked examples, the standard's printed ones, generated deliveries and
//! docs/REFUSALS.md; and the comparison against boundaries that slip.

mod boards;
mod categories;
mod connections;
mod day_sets;
mod deliveries;
mod differ;
mod examples;
mod expected;
mod ground;
mod names;
mod national;
mod random;
mod refusals;
mod requests;
mod runs;
mod standard;
mod writing;

pub use crate::columns::{a, bitfield, call, category, file, g, t, text, z};
