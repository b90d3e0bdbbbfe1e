//! The independent reader of document 01, the generator of deliveries, and the comparison of a boundary with the reader.
//! Reader and generator are written from the paper alone; all with the standard library only.

pub mod boundary;
pub mod columns;
pub mod differ;
pub mod edge;
pub mod files;
pub mod functions;
pub mod generate;
pub mod ground;
/// The planner's; `tools/boundary.sh` writes it from the header and the loader.
#[path = "../../planner/sys/src/layout.rs"]
pub mod layout;
pub mod reader;
pub mod requests;
pub mod standard;

#[cfg(test)]
mod selftest;
