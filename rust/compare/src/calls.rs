//! The proved calls as the archive has them, on words of either width.

use std::fmt::Debug;

use founded::raw;

/// A word of a graph, with the calls that take it.
pub trait Word: paper::Word + Debug + Eq + From<u16> + 'static {
    /// What a call answers: number and place, half the bits each.
    type Code: Copy;

    const BITS: usize;
    const MAX: Self;
    const ARCHIVE: Calls<Self>;

    /// The lowest bits.
    fn cut(bits: u64) -> Self;

    fn bytes(self) -> Vec<u8>;

    fn code(number: u32, place: u32) -> Self::Code;

    /// Number and place; without a refusal the number is 0 and the place the answer.
    fn parts(code: Self::Code) -> (u32, u32);
}

/// A word for a number that has room in it.
pub fn word<W: Word>(number: usize) -> W {
    let word = W::cut(number as u64);
    assert_eq!(word.number(), number, "no word has {number}");
    word
}

/// The pass within an allowance: after the work area the allowance.
pub type Within<W> = unsafe extern "C" fn(
    *const W,
    usize,
    *const u64,
    usize,
    *const u64,
    usize,
    *mut u64,
    usize,
    *mut W,
    usize,
    *mut u64,
) -> <W as Word>::Code;

/// A search branch: after the graph the number of pairs, then node masks, atom
/// masks, output and work area.
pub type Branch<W> = unsafe extern "C" fn(
    *const W,
    usize,
    usize,
    *const u64,
    usize,
    *const u64,
    usize,
    *mut u64,
    usize,
    *mut W,
    usize,
) -> <W as Word>::Code;

/// The calls on words of one width.
#[derive(Clone, Copy)]
pub struct Calls<W: Word> {
    pub check: unsafe extern "C" fn(*const W, usize) -> W::Code,
    /// In edition 1 the length of the work area is fixed.
    pub work_words: Option<unsafe extern "C" fn(*const W, usize) -> u64>,
    pub needed: unsafe extern "C" fn(*const W, usize, *mut W, usize) -> W::Code,
    pub prepare: unsafe extern "C" fn(*const W, usize, *mut u64, usize, *mut W, usize) -> W::Code,
    pub complete: Pass<W>,
    /// Request 6's call, in edition 1 alone.
    pub unfounded: Option<Pass<W>>,
    /// Request 8's call, in edition 1 alone.
    pub within: Option<Within<W>>,
    /// Edition 2 has none.
    pub branch: Option<Branch<W>>,
}

/// Graph, node mask, atom mask, output, work area.
pub type Pass<W> = unsafe extern "C" fn(
    *const W,
    usize,
    *const u64,
    usize,
    *const u64,
    usize,
    *mut u64,
    usize,
    *mut W,
    usize,
) -> <W as Word>::Code;

impl Word for u16 {
    type Code = u32;

    const BITS: usize = 16;
    const MAX: Self = Self::MAX;
    const ARCHIVE: Calls<Self> = Calls {
        check: raw::founded_check,
        work_words: None,
        needed: raw::founded_needed,
        prepare: raw::founded_prepare,
        complete: raw::founded_complete,
        unfounded: Some(raw::founded_unfounded),
        within: Some(raw::founded_complete_within),
        branch: Some(raw::founded_branch),
    };

    fn cut(bits: u64) -> Self {
        bits as Self
    }

    fn bytes(self) -> Vec<u8> {
        self.to_le_bytes().to_vec()
    }

    fn code(number: u32, place: u32) -> u32 {
        number << 16 | place
    }

    fn parts(code: u32) -> (u32, u32) {
        (code >> 16, code & 0xffff)
    }
}

impl Word for u32 {
    type Code = u64;

    const BITS: usize = 32;
    const MAX: Self = Self::MAX;
    const ARCHIVE: Calls<Self> = Calls {
        check: raw::founded_wide_check,
        work_words: Some(raw::founded_wide_work_words),
        needed: raw::founded_wide_needed,
        prepare: raw::founded_wide_prepare,
        complete: raw::founded_wide_complete,
        unfounded: None,
        within: None,
        branch: None,
    };

    fn cut(bits: u64) -> Self {
        bits as Self
    }

    fn bytes(self) -> Vec<u8> {
        self.to_le_bytes().to_vec()
    }

    fn code(number: u32, place: u32) -> u64 {
        u64::from(number) << 32 | u64::from(place)
    }

    fn parts(code: u64) -> (u32, u32) {
        ((code >> 32) as u32, code as u32)
    }
}

/// The same words in edition 2. Which number is right changes with the edition,
/// so a wrong one stays wrong.
pub fn widened(words: &[u16]) -> Vec<u32> {
    let mut wide: Vec<u32> = words.iter().copied().map(u32::from).collect();
    if let Some(edition @ 1..=2) = wide.first_mut() {
        *edition = 3 - *edition;
    }
    wide
}
