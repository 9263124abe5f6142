use std::ops::Range;

use crate::mask::{self, Atoms, Cut};
use crate::{AtomMask, Error, Graph, MOST_PAIRS, NodeMask, Refusal, calls};

/// The pairs of masks of a search branch, 1 to 64 for one graph of edition 1: each has a node mask and an atom mask, laid end to end as the call takes them. A branch
/// is built once and changed in place between calls; nothing is copied for a call.
#[derive(Clone, Debug, PartialEq, Eq)]
pub struct Branch {
    pairs: usize,
    pub(crate) never: EndToEnd,
    pub(crate) atom_never: EndToEnd,
}

/// A mask for each pair, over so many numbers.
#[derive(Clone, Debug, PartialEq, Eq)]
pub struct EndToEnd {
    words: Vec<u64>,
    count: usize,
}

impl EndToEnd {
    fn none(pairs: usize, count: usize) -> Self {
        Self {
            words: vec![0; pairs * calls::mask_words(count)],
            count,
        }
    }

    /// Where a pair's mask stands.
    fn range(&self, pair: usize) -> Range<usize> {
        let words = calls::mask_words(self.count);
        pair * words..(pair + 1) * words
    }

    fn of(&self, pair: usize) -> &[u64] {
        &self.words[self.range(pair)]
    }

    fn of_mut(&mut self, pair: usize) -> &mut [u64] {
        let range = self.range(pair);
        &mut self.words[range]
    }

    pub(crate) fn words(&self) -> &[u64] {
        &self.words
    }
}

impl Branch {
    /// So many pairs of masks, which cut none.
    ///
    /// # Errors
    /// [`Refusal::Pairs`]: no pair, or more than 64.
    pub fn new(graph: &Graph, pairs: usize) -> Result<Self, Refusal> {
        if !(1..=MOST_PAIRS).contains(&pairs) {
            return Err(Refusal::Pairs);
        }
        Ok(Self {
            pairs,
            never: EndToEnd::none(pairs, graph.nodes()),
            atom_never: EndToEnd::none(pairs, graph.atoms()),
        })
    }

    /// How many pairs there are. They are numbered from 0.
    #[must_use]
    pub fn pairs(&self) -> usize {
        self.pairs
    }

    /// Of how many nodes and atoms the graph is.
    pub(crate) fn counts(&self) -> (usize, usize) {
        (self.never.count, self.atom_never.count)
    }

    fn known(&self, pair: usize) -> Result<(), Error> {
        if pair < self.pairs {
            Ok(())
        } else {
            Err(Error::NoPair(pair))
        }
    }

    /// The word and the bit of a node or an atom in its mask.
    fn place<I: Cut>(&mut self, pair: usize, one: I) -> Result<(&mut u64, u64), Error> {
        self.known(pair)?;
        let masks = I::masks_mut(self);
        let number = one.number() as usize;
        if number >= masks.count {
            return Err(one.unknown());
        }
        let word = &mut masks.of_mut(pair)[number / 64];
        Ok((word, 1 << (number % 64)))
    }

    /// Cuts a node or an atom in this pair.
    ///
    /// # Errors
    /// No such pair, or one that the graph does not have.
    pub fn cut<I: Cut>(&mut self, pair: usize, one: I) -> Result<(), Error> {
        let (word, bit) = self.place(pair, one)?;
        *word |= bit;
        Ok(())
    }

    /// Takes the cut of a node or an atom back in this pair.
    ///
    /// # Errors
    /// No such pair, or one that the graph does not have.
    pub fn uncut<I: Cut>(&mut self, pair: usize, one: I) -> Result<(), Error> {
        let (word, bit) = self.place(pair, one)?;
        *word &= !bit;
        Ok(())
    }

    /// Whether the pair is there and cuts the node or atom.
    #[must_use]
    pub fn contains<I: Cut>(&self, pair: usize, one: I) -> bool {
        pair < self.pairs && mask::bit(I::masks(self).of(pair), one.number())
    }

    /// The pair cuts what these masks do.
    ///
    /// # Errors
    /// No such pair, or [`Refusal::Lengths`] if a mask is that of a graph of another count; then the pair is as it was.
    pub fn set(
        &mut self,
        pair: usize,
        never: &NodeMask,
        atom_never: &AtomMask,
    ) -> Result<(), Error> {
        self.known(pair)?;
        if (never.count(), atom_never.count()) != self.counts() {
            return Err(Refusal::Lengths.into());
        }
        self.never.of_mut(pair).copy_from_slice(never.words());
        self.atom_never
            .of_mut(pair)
            .copy_from_slice(atom_never.words());
        Ok(())
    }

    /// The second pair cuts what the first does.
    ///
    /// # Errors
    /// No such pair.
    pub fn copy(&mut self, from: usize, to: usize) -> Result<(), Error> {
        self.known(from)?;
        self.known(to)?;
        for masks in [&mut self.never, &mut self.atom_never] {
            let (from, to) = (masks.range(from), masks.range(to).start);
            masks.words.copy_within(from, to);
        }
        Ok(())
    }

    /// The pair cuts none.
    ///
    /// # Errors
    /// No such pair.
    pub fn clear(&mut self, pair: usize) -> Result<(), Error> {
        self.known(pair)?;
        self.never.of_mut(pair).fill(0);
        self.atom_never.of_mut(pair).fill(0);
        Ok(())
    }

    /// The node masks end to end, a bit for each node.
    #[must_use]
    pub fn never(&self) -> &[u64] {
        self.never.words()
    }

    /// The atom masks end to end, a bit for each atom.
    #[must_use]
    pub fn atom_never(&self) -> &[u64] {
        self.atom_never.words()
    }
}

/// The missing lists of a search branch, one for each pair, as the call leaves them: they are read where they stand.
#[derive(Clone, Copy, Debug, PartialEq, Eq)]
pub struct Lists<'a> {
    words: &'a [u64],
    pairs: usize,
}

impl<'a> Lists<'a> {
    pub(crate) fn of(words: &'a [u64], pairs: usize) -> Self {
        Self { words, pairs }
    }

    /// How many lists there are: one for each pair.
    #[must_use]
    #[allow(clippy::len_without_is_empty)] // There is one at least.
    pub fn len(self) -> usize {
        self.pairs
    }

    /// The missing atoms under the cuts of this pair; None if there is no such pair.
    #[must_use]
    pub fn get(self, pair: usize) -> Option<Atoms<'a>> {
        let words = self.words.len() / self.pairs;
        let list = || Atoms::of(&self.words[pair * words..(pair + 1) * words]);
        (pair < self.pairs).then(list)
    }

    /// The lists, in the order of the pairs.
    pub fn iter(self) -> impl Iterator<Item = Atoms<'a>> {
        (0..self.pairs).filter_map(move |pair| self.get(pair))
    }

    /// The lists end to end.
    #[must_use]
    pub fn words(self) -> &'a [u64] {
        self.words
    }
}
