use std::fmt::Debug;
use std::hash::Hash;

/// A word of a graph, whose type tells the edition: `u16` in edition 1, `u32` in edition 2. No other type is one.
pub trait Word:
    Copy
    + Debug
    + Default
    + Eq
    + Hash
    + Send
    + Sync
    + 'static
    + Into<u32>
    + TryFrom<u32>
    + sealed::Archive
{
    /// The edition's number, a graph's first word.
    const EDITION: Self;

    /// The most atoms, the most nodes and the most producers.
    const MOST: usize;

    /// The most links, the most leaf entries and the most head entries.
    const MOST_ENTRIES: usize;
}

impl Word for u16 {
    const EDITION: Self = 1;
    const MOST: usize = 1_024;
    const MOST_ENTRIES: usize = 4_096;
}

impl Word for u32 {
    const EDITION: Self = 2;
    const MOST: usize = 262_144;
    const MOST_ENTRIES: usize = 1_048_576;
}

pub(crate) mod sealed {
    use crate::{WORK_WORDS, raw};

    /// What the archive has for graphs of such words. With the numbers above this is all in which the widths differ.
    pub trait Archive: Sized {
        /// A refusal's code: its place in as many low bits as a word has, its number above them.
        type Code: Into<u64>;

        const CALLS: Calls<Self>;

        /// The length of the work area that 11 asks for, by how many atoms, nodes and producers there are together, and leaf and head entries together.
        fn area(size: usize, entries: usize) -> usize;
    }

    pub struct Calls<W: Archive> {
        pub check: unsafe extern "C" fn(*const W, usize) -> W::Code,
        pub needed: unsafe extern "C" fn(*const W, usize, *mut W, usize) -> W::Code,
        pub prepare:
            unsafe extern "C" fn(*const W, usize, *mut u64, usize, *mut W, usize) -> W::Code,
        pub complete: unsafe extern "C" fn(
            *const W,
            usize,
            *const u64,
            usize,
            *const u64,
            usize,
            *mut u64,
            usize,
            *mut W,
            usize,
        ) -> W::Code,
    }

    impl Archive for u16 {
        type Code = u32;

        const CALLS: Calls<Self> = Calls {
            check: raw::founded_check,
            needed: raw::founded_needed,
            prepare: raw::founded_prepare,
            complete: raw::founded_complete,
        };

        fn area(_: usize, _: usize) -> usize {
            WORK_WORDS
        }
    }

    impl Archive for u32 {
        type Code = u64;

        const CALLS: Calls<Self> = Calls {
            check: raw::founded_wide_check,
            needed: raw::founded_wide_needed,
            prepare: raw::founded_wide_prepare,
            complete: raw::founded_wide_complete,
        };

        fn area(size: usize, entries: usize) -> usize {
            16 * (size + 1) + 4 * entries
        }
    }
}
