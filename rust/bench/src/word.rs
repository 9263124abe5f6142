//! The two word widths: the number and limits of each edition, and its calls.

use founded::raw;

type Check<W> = unsafe extern "C" fn(*const W, usize) -> <W as Word>::Code;
type Needed<W> = unsafe extern "C" fn(*const W, usize, *mut W, usize) -> <W as Word>::Code;
type Prepare<W> =
    unsafe extern "C" fn(*const W, usize, *mut u64, usize, *mut W, usize) -> <W as Word>::Code;
type Complete<W> = unsafe extern "C" fn(
    *const W,
    usize,
    *const u64,
    usize,
    *const u64,
    usize,
    *mut u64,
    usize,
    *mut W,
    usize,
) -> <W as Word>::Code;

/// A word of a graph.
pub trait Word: Copy + Default + Ord + Into<u32> {
    /// What the calls answer: 0, the loop test's 1, or a refusal.
    type Code: Into<u64>;

    const EDITION: usize;
    /// Of atoms, of nodes and of producers.
    const MOST: usize;
    /// Of links, of leaf entries and of head entries.
    const MOST_LINKS: usize;

    const CHECK: Check<Self>;
    const NEEDED: Needed<Self>;
    const PREPARE: Prepare<Self>;
    const COMPLETE: Complete<Self>;
    /// In edition 1 alone.
    const UNFOUNDED: Option<Complete<Self>>;

    /// The length of the work area for an accepted graph.
    fn work_words(graph: &[Self]) -> usize;

    /// The word for a number that it can hold.
    fn of(number: usize) -> Self;

    fn number(self) -> usize {
        let number: u32 = self.into();
        number as usize
    }
}

impl Word for u16 {
    type Code = u32;

    const EDITION: usize = 1;
    const MOST: usize = 1_024;
    const MOST_LINKS: usize = 4_096;

    const CHECK: Check<Self> = raw::founded_check;
    const NEEDED: Needed<Self> = raw::founded_needed;
    const PREPARE: Prepare<Self> = raw::founded_prepare;
    const COMPLETE: Complete<Self> = raw::founded_complete;
    const UNFOUNDED: Option<Complete<Self>> = Some(raw::founded_unfounded);

    fn work_words(_: &[Self]) -> usize {
        32_768
    }

    fn of(number: usize) -> Self {
        number as Self
    }
}

impl Word for u32 {
    type Code = u64;

    const EDITION: usize = 2;
    const MOST: usize = 262_144;
    const MOST_LINKS: usize = 1_048_576;

    const CHECK: Check<Self> = raw::founded_wide_check;
    const NEEDED: Needed<Self> = raw::founded_wide_needed;
    const PREPARE: Prepare<Self> = raw::founded_wide_prepare;
    const COMPLETE: Complete<Self> = raw::founded_wide_complete;
    const UNFOUNDED: Option<Complete<Self>> = None;

    fn work_words(graph: &[Self]) -> usize {
        // Safety: pointer and length are those of a slice.
        (unsafe { raw::founded_wide_work_words(graph.as_ptr(), graph.len()) }) as usize
    }

    fn of(number: usize) -> Self {
        number as Self
    }
}
