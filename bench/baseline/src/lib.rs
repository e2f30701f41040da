//! The judge of cases once more, in plain Rust and written from docs/RULES.md, docs/FORMATS.md and docs/REFUSALS.md alone. It
//! is what the proved product is timed against, so it takes the ways that are fast and still plain:
//!
//! - ids are below 64, so sets of nodes are `u64`s;
//! - a schema computes its tables once: places, blocks with their dividers, which nodes each branch holds, sync sources;
//! - a plan computes once what each of its changes asks of a case;
//! - no memory is taken for a case or an entry, and lines and records are held in buffers that are used again.
#![forbid(unsafe_code)]

pub mod batch;
pub mod case;
pub mod conditions;
pub mod draft;
pub mod edges;
pub mod layout;
pub mod lines;
pub mod marking;
pub mod records;
pub mod schema;
pub mod stepwise;
pub mod verdict;
