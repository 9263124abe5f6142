//! The proved calls timed against the Rust, and edition 2's against edition 1's.
//!
//! - [`word`]: the two word widths with their calls;
//! - [`inputs`]: the graphs;
//! - [`plain`]: the graph check in plain Rust;
//! - [`sides`]: one call on each side, with all that it needs;
//! - [`measure`]: rounds of all sides in turn, and what they say;
//! - [`branches`]: search branches, by their later pairs;
//! - [`report`], [`plot`]: tables, bars and the plots;
//! - [`caches`]: where the machine's caches end.

pub mod branches;
pub mod caches;
pub mod inputs;
pub mod measure;
pub mod open;
pub mod plain;
pub mod plot;
pub mod report;
pub mod sides;
pub mod word;
