//! Lists of atoms that outlive the next call.

use std::fmt;

use crate::{AtomId, Atoms};

/// A list of atoms that is kept: what [`Atoms`] shows until the next call, as a list of its own.
#[derive(Clone, Default, PartialEq, Eq, Hash)]
pub struct AtomList {
    words: Vec<u64>,
}

impl AtomList {
    /// The list as a call leaves it.
    #[must_use]
    pub fn atoms(&self) -> Atoms<'_> {
        Atoms::of(&self.words)
    }

    #[must_use]
    pub fn contains(&self, atom: AtomId) -> bool {
        self.atoms().contains(atom)
    }

    /// The atoms, ascending.
    pub fn iter(&self) -> AtomsIter<'_> {
        self.atoms().into_iter()
    }

    #[must_use]
    pub fn len(&self) -> usize {
        self.atoms().len()
    }

    #[must_use]
    pub fn is_empty(&self) -> bool {
        self.atoms().is_empty()
    }
}

impl Atoms<'_> {
    /// The list to keep.
    #[must_use]
    pub fn to_list(self) -> AtomList {
        let words = self.words().to_vec();
        AtomList { words }
    }
}

impl From<Atoms<'_>> for AtomList {
    fn from(atoms: Atoms<'_>) -> Self {
        atoms.to_list()
    }
}

/// The atoms of a list, ascending.
#[derive(Clone, Debug)]
pub struct AtomsIter<'a> {
    words: &'a [u64],
    /// The number of the first word's first bit, and what is left of that word.
    first: u32,
    rest: u64,
}

impl Iterator for AtomsIter<'_> {
    type Item = AtomId;

    fn next(&mut self) -> Option<AtomId> {
        while self.rest == 0 {
            let (_, words) = self.words.split_first()?;
            self.words = words;
            self.rest = *words.first()?;
            self.first += 64;
        }
        let atom = AtomId(self.first + self.rest.trailing_zeros());
        self.rest &= self.rest - 1;
        Some(atom)
    }
}

impl<'a> IntoIterator for Atoms<'a> {
    type Item = AtomId;
    type IntoIter = AtomsIter<'a>;

    fn into_iter(self) -> AtomsIter<'a> {
        let words = self.words();
        AtomsIter {
            words,
            first: 0,
            rest: words.first().copied().unwrap_or_default(),
        }
    }
}

impl<'a> IntoIterator for &'a AtomList {
    type Item = AtomId;
    type IntoIter = AtomsIter<'a>;

    fn into_iter(self) -> AtomsIter<'a> {
        self.iter()
    }
}

impl fmt::Debug for AtomList {
    fn fmt(&self, f: &mut fmt::Formatter<'_>) -> fmt::Result {
        f.debug_set().entries(self).finish()
    }
}
