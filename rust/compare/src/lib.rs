//! The original (`oracle`), the papers (`paper`) and the proved calls
//! (`founded`) held against each other, in both editions.
//!
//! - [`content`], [`tiny`], [`random`], [`damage`], [`edges`], [`cases`]: inputs;
//! - [`calls`]: the words of either width, and the calls on them;
//! - [`agree`]: one graph compared, with its masks;
//! - [`branches`]: search branches of several pairs of masks;
//! - [`ours`]: the proved calls, with the memory lent to them watched;
//! - [`within`]: one graph's passes within an allowance;
//! - [`open`]: the calls on undecided bits, held to every choice;
//! - [`runs`]: whole families of graphs compared;
//! - [`recut`]: what request 7 promises, over runs of the proved calls;
//! - [`pairs`]: two graphs, by the order of request 14;
//! - [`programs`]: a program held to the papers' text;
//! - [`record`]: the recorded list.

pub mod agree;
pub mod branches;
pub mod calls;
pub mod cases;
pub mod content;
pub mod damage;
pub mod edges;
pub mod open;
pub mod ours;
pub mod pairs;
pub mod programs;
pub mod random;
pub mod record;
pub mod recut;
pub mod rng;
pub mod runs;
pub mod tiny;
pub mod within;
