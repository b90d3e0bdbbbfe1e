//! Seeded deliveries, damaged tables, questions and arithmetic on operating days for the comparison.
//!
//! A `Plan` says what a delivery means, a `Sheet` holds its lines, a `Case` its bytes. A damage changes a plan or a
//! sheet in one clause of one refusal, and knows the refusal and the line that it must bring.

pub mod bend_table;
pub mod boards;
pub mod break_form;
pub mod break_plan;
pub mod break_sheet;
pub mod case;
pub mod connections;
pub mod day_sets;
pub mod ends;
pub mod isolation;
pub mod names;
pub mod national;
pub mod numbers;
pub mod plan;
pub mod questions;
pub mod raw_table;
pub mod rng;
pub mod sheet;
pub mod writes;

pub use bend_table::{damaged_table, names_bent};
pub use case::{counted_helper, damaged, mixed, mutated, oversized, several, some_helper, valid, Aim, Case, DAMAGES};
pub use day_sets::{arithmetic, Arithmetic};
pub use names::{name_question, other_bytes, NameQuestion};
pub use national::{
    bucket, empty_lines, national, shortest_categories, shortest_in, shortest_records, worst_numbers, National, MIB,
    USUAL_CATEGORIES, WORST_STOP_LINES,
};
pub use numbers::Numbers;
pub use questions::{question, Question};
pub use rng::Rng;

/// How large a delivery gets.
#[derive(Clone, Copy, Debug, PartialEq, Eq)]
pub enum Size {
    /// 1 to 3 services of 2 to 6 calls, each file up to about 1,500 bytes.
    Small,
    /// Up to 5 services of 2 to 14 calls.
    Medium,
    /// Services at the limits of refusal 13.
    Large,
}
