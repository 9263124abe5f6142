//! The recorded list: the original's answers, with refusals and their places
//! from document 01, for a program that replays them. Its README has the format.

mod graphs;
mod programs;
mod writer;

pub use programs::input;
pub use writer::{Call, Recording};

/// The seed of all random parts.
pub const SEED: u64 = 20_261_115;

/// The whole list.
pub fn make() -> Recording {
    let mut recording = Recording::default();
    graphs::write(&mut recording);
    programs::write(&mut recording);
    recording
}
