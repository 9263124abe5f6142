use std::iter;
use std::marker::PhantomData;

use crate::{AtomId, Error, GraphOf, NodeId, Refusal, Word, calls};

/// What can be cut: nodes and atoms.
pub trait Cut: Copy + sealed::Numbered {}

impl Cut for NodeId {}
impl Cut for AtomId {}

pub(crate) mod sealed {
    use crate::branch::EndToEnd;
    use crate::{AtomId, Branch, Error, GraphOf, NodeId, Word};

    pub trait Numbered {
        fn count<W: Word>(graph: &GraphOf<W>) -> usize;
        fn number(self) -> u32;
        fn numbered(number: u32) -> Self;
        fn unknown(self) -> Error;
        fn masks(branch: &Branch) -> &EndToEnd;
        fn masks_mut(branch: &mut Branch) -> &mut EndToEnd;
    }

    impl Numbered for NodeId {
        fn count<W: Word>(graph: &GraphOf<W>) -> usize {
            graph.nodes()
        }

        fn number(self) -> u32 {
            self.0
        }

        fn numbered(number: u32) -> Self {
            Self(number)
        }

        fn unknown(self) -> Error {
            Error::NoNode(self)
        }

        fn masks(branch: &Branch) -> &EndToEnd {
            &branch.never
        }

        fn masks_mut(branch: &mut Branch) -> &mut EndToEnd {
            &mut branch.never
        }
    }

    impl Numbered for AtomId {
        fn count<W: Word>(graph: &GraphOf<W>) -> usize {
            graph.atoms()
        }

        fn number(self) -> u32 {
            self.0
        }

        fn numbered(number: u32) -> Self {
            Self(number)
        }

        fn unknown(self) -> Error {
            Error::NoAtom(self)
        }

        fn masks(branch: &Branch) -> &EndToEnd {
            &branch.atom_never
        }

        fn masks_mut(branch: &mut Branch) -> &mut EndToEnd {
            &mut branch.atom_never
        }
    }
}

pub(crate) fn bit(words: &[u64], number: u32) -> bool {
    words
        .get(number as usize / 64)
        .is_some_and(|word| word >> (number % 64) & 1 == 1)
}

/// The numbers of the bits that are set, ascending.
fn ones(words: &[u64]) -> impl Iterator<Item = u32> {
    (0..).step_by(64).zip(words).flat_map(|(first, &word)| {
        let bits = iter::successors(Some(word), |rest| Some(rest & rest.wrapping_sub(1)));
        bits.take_while(|&rest| rest != 0)
            .map(move |rest| first + rest.trailing_zeros())
    })
}

/// Nodes or atoms of a graph, of either edition, that are cut: a bit for each number, lowest first. It is for graphs of the same counts. Only what makes a mask
/// allocates; to change one does not.
#[derive(Clone, Debug, PartialEq, Eq)]
pub struct Mask<I> {
    words: Vec<u64>,
    count: usize,
    of: PhantomData<I>,
}

/// The nodes of a graph that are cut: ruled out, false whatever their kind.
pub type NodeMask = Mask<NodeId>;

/// The atoms of a graph that are cut: ruled out, and so never missing.
pub type AtomMask = Mask<AtomId>;

impl<I: Cut> Mask<I> {
    /// Cuts none.
    #[must_use]
    pub fn none<W: Word>(graph: &GraphOf<W>) -> Self {
        let count = I::count(graph);
        Self {
            words: vec![0; calls::mask_words(count)],
            count,
            of: PhantomData,
        }
    }

    /// Cuts these.
    ///
    /// # Errors
    /// One that the graph does not have.
    pub fn of<W: Word>(
        graph: &GraphOf<W>,
        all: impl IntoIterator<Item = I>,
    ) -> Result<Self, Error> {
        let mut mask = Self::none(graph);
        all.into_iter().try_for_each(|one| mask.cut(one))?;
        Ok(mask)
    }

    /// Cuts those of a mask as a logger leaves it: its trailing zero words may be dropped.
    ///
    /// # Errors
    /// [`Refusal::Lengths`] if it is longer than a mask of this graph.
    pub fn from_words<W: Word>(graph: &GraphOf<W>, words: &[u64]) -> Result<Self, Error> {
        let mut mask = Self::none(graph);
        mask.take(words)?;
        Ok(mask)
    }

    /// # Errors
    /// One that the graph does not have.
    pub fn cut(&mut self, one: I) -> Result<(), Error> {
        let (word, bit) = self.place(one)?;
        self.words[word] |= bit;
        Ok(())
    }

    /// # Errors
    /// One that the graph does not have.
    pub fn uncut(&mut self, one: I) -> Result<(), Error> {
        let (word, bit) = self.place(one)?;
        self.words[word] &= !bit;
        Ok(())
    }

    fn place(&self, one: I) -> Result<(usize, u64), Error> {
        let number = one.number() as usize;
        if number >= self.count {
            return Err(one.unknown());
        }
        Ok((number / 64, 1 << (number % 64)))
    }

    /// Cuts none.
    pub fn clear(&mut self) {
        self.words.fill(0);
    }

    /// Cuts those of the words alone, as [`Mask::from_words`]. Bits past the last number are dropped.
    ///
    /// # Errors
    /// [`Refusal::Lengths`] if there are more words than this mask has; it stays as it was.
    pub fn take(&mut self, words: &[u64]) -> Result<(), Error> {
        let Some((first, rest)) = self.words.split_at_mut_checked(words.len()) else {
            return Err(Refusal::Lengths.into());
        };
        first.copy_from_slice(words);
        rest.fill(0);
        if let Some(last) = self.words.last_mut() {
            *last &= u64::MAX >> (self.count.wrapping_neg() % 64);
        }
        Ok(())
    }

    /// Cuts what another mask cuts, and nothing else.
    ///
    /// # Errors
    /// [`Refusal::Lengths`] if that is a mask of a graph of another count; this one stays as it was.
    pub fn copy_from(&mut self, other: &Self) -> Result<(), Error> {
        if other.count != self.count {
            return Err(Refusal::Lengths.into());
        }
        self.words.copy_from_slice(&other.words);
        Ok(())
    }

    /// Those that are cut, ascending.
    pub fn iter(&self) -> impl Iterator<Item = I> {
        ones(&self.words).map(I::numbered)
    }

    /// How many nodes or atoms the graph has.
    #[must_use]
    pub fn count(&self) -> usize {
        self.count
    }

    #[must_use]
    pub fn contains(&self, one: I) -> bool {
        bit(&self.words, one.number())
    }

    #[must_use]
    pub fn words(&self) -> &[u64] {
        &self.words
    }
}

/// A list of atoms as a call leaves it: the cyclic atoms, the missing ones, or those that are left unfounded with every atom marked.
#[derive(Clone, Copy, Debug, PartialEq, Eq)]
pub struct Atoms<'a> {
    words: &'a [u64],
}

impl<'a> Atoms<'a> {
    pub(crate) fn of(words: &'a [u64]) -> Self {
        Self { words }
    }

    #[must_use]
    pub fn contains(self, atom: AtomId) -> bool {
        bit(self.words, atom.0)
    }

    /// The atoms, ascending.
    pub fn iter(self) -> impl Iterator<Item = AtomId> + 'a {
        ones(self.words).map(AtomId)
    }

    #[must_use]
    pub fn len(self) -> usize {
        self.words
            .iter()
            .map(|word| word.count_ones() as usize)
            .sum()
    }

    #[must_use]
    pub fn is_empty(self) -> bool {
        self.len() == 0
    }

    #[must_use]
    pub fn words(self) -> &'a [u64] {
        self.words
    }
}
