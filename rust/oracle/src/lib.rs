//! The original founded-support check, its files unchanged, as the oracle.
//!
//! `regions/founded.rs`, the files under `regions/founded/` that STAND-INS.md
//! does not list, `regions/adjacency.rs` and `regions/counters.rs` are the
//! original's, byte for byte. All else fills in what they lean on.

// The originals name the crate `zetesis_algebra`; its stand-ins are here.
extern crate self as zetesis_algebra;

mod algebra;
mod decode;
mod regions;
mod theory;
mod words;

pub(crate) use algebra::{Failure, Meter, Quota, Stop};
pub use regions::{Branch, Ended, Lists, Oracle, Projected, Role, Rows};
