//! Graphs as files have them: each word with its low byte first.

use crate::{GraphOf, Refusal, Word};

/// A word's bytes.
const fn width<W>() -> usize {
    size_of::<W>()
}

impl<W: Word> GraphOf<W> {
    /// The graph's words as bytes, the low byte of each first: 2 bytes a word in edition 1, 4 in edition 2.
    #[must_use]
    pub fn to_bytes(&self) -> Vec<u8> {
        let bytes = |&word: &W| {
            let word: u32 = word.into();
            word.to_le_bytes().into_iter().take(width::<W>())
        };
        self.words().iter().flat_map(bytes).collect()
    }

    /// A graph from its bytes: see [`GraphOf::from_words`].
    ///
    /// # Errors
    /// The first of refusals 1 to 9 and 14 that applies. Bytes that are no whole word have not the graph's length: 3.
    pub fn from_bytes(bytes: &[u8]) -> Result<Self, Refusal> {
        let words = bytes.chunks_exact(width::<W>());
        let whole = words.remainder().is_empty();
        let word = |bytes: &[u8]| {
            let word = bytes
                .iter()
                .rev()
                .fold(0, |word, &byte| word << 8 | u32::from(byte));
            W::try_from(word).ok()
        };
        let words: Option<Vec<W>> = words.map(word).collect();
        let graph = Self::from_words(words.expect("a word has room for its bytes"));
        match graph {
            Err(Refusal::Edition | Refusal::Counts) => graph,
            _ if !whole => Err(Refusal::Size),
            _ => graph,
        }
    }
}
