//! Stand-in for `zetesis_algebra::words`: a set of numbers, 64 to a word,
//! lowest bit first.

use std::marker::PhantomData;
use std::ops::Deref;

#[derive(Debug)]
pub(crate) struct Words<W, S = Vec<W>> {
    storage: S,
    width: PhantomData<W>,
}

impl<W> Default for Words<W> {
    fn default() -> Self {
        Self {
            storage: Vec::new(),
            width: PhantomData,
        }
    }
}

impl<S: AsRef<[u64]>> Words<u64, S> {
    pub(crate) fn new(storage: S) -> Self {
        Self {
            storage,
            width: PhantomData,
        }
    }

    pub(crate) fn contains(&self, index: usize) -> bool {
        self.storage.as_ref()[index / 64] >> (index % 64) & 1 == 1
    }
}

impl Words<u64> {
    pub(crate) fn insert(&mut self, index: usize) {
        self.storage[index / 64] |= 1 << (index % 64);
    }

    pub(crate) fn remove(&mut self, index: usize) {
        self.storage[index / 64] &= !(1 << (index % 64));
    }

    pub(crate) fn storage_mut(&mut self) -> &mut Vec<u64> {
        &mut self.storage
    }

    pub(crate) fn capacity(&self) -> usize {
        self.storage.capacity()
    }

    pub(crate) const fn popcount(word: u64) -> u32 {
        word.count_ones()
    }
}

impl Deref for Words<u64> {
    type Target = [u64];

    fn deref(&self) -> &[u64] {
        &self.storage
    }
}
