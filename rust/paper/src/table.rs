//! "Where a call is turned away": the table's rows, in its order; by request 5
//! of document 02 14 stands between 6 and 7. 1, 2, 9 and 11 read the edition's
//! numbers.

use crate::edition::{Edition, Word};

/// A call turned away: the row's number and its place.
#[derive(Clone, Copy, Debug, PartialEq, Eq)]
pub struct Refusal {
    pub number: u16,
    pub place: u32,
}

impl Refusal {
    pub(crate) fn at(number: u16, place: usize) -> Self {
        Self {
            number,
            place: place.try_into().expect("a place is 32 bits"),
        }
    }
}

/// Rows 1 to 9 and 14.
///
/// # Errors
/// The first row of the table that applies.
pub fn check<W: Word>(words: &[W]) -> Result<(), Refusal> {
    header(words)?;
    length(words)?;
    let parts = Parts::of(words);
    let first = |number: u16, found: Option<usize>| match found {
        Some(place) => Err(Refusal::at(number, place)),
        None => Ok(()),
    };
    first(4, (0..parts.n).find(|&c| parts.bad_condition(c)))?;
    first(5, (0..parts.p).find(|&r| parts.bad_rule(r)))?;
    first(6, (1..=parts.k).find(|&l| parts.link(l)[1] > parts.k))?;
    let mut met = Met::new(parts.k);
    let leaves = |c: usize| parts.links(parts.condition(c)[2]);
    let heads = |r: usize| parts.links(parts.rule(r)[1]);
    first(14, (0..parts.n).find(|&c| met.come_back(leaves(c))))?;
    first(14, (0..parts.p).find(|&r| met.come_back(heads(r))))?;
    first(
        7,
        (0..parts.n).find(|&c| parts.leaves(c).any(|leaf| leaf >= c)),
    )?;
    first(
        8,
        (0..parts.p).find(|&r| parts.heads(r).any(|head| head >= parts.a)),
    )?;
    let leaf_entries: usize = (0..parts.n).map(|c| parts.leaves(c).count()).sum();
    let head_entries: usize = (0..parts.p).map(|r| parts.heads(r).count()).sum();
    let most = W::EDITION.entries;
    if leaf_entries > most || head_entries > most {
        return Err(Refusal::at(9, 0));
    }
    Ok(())
}

/// Rows 1 and 2, which the header alone decides.
pub(crate) fn header<W: Word>(words: &[W]) -> Result<(), Refusal> {
    let Edition {
        number,
        counts,
        links,
        ..
    } = W::EDITION;
    if words.len() < 5 || words[0].into() != number {
        return Err(Refusal::at(1, 0));
    }
    let Parts { a, n, p, k, .. } = Parts::of(words);
    if a > counts || n > counts || p > counts || k > links {
        return Err(Refusal::at(2, 0));
    }
    Ok(())
}

/// How many words the header says the graph has.
pub(crate) fn sized<W: Word>(words: &[W]) -> usize {
    let Parts { n, p, k, .. } = Parts::of(words);
    5 + 3 * n + 2 * p + 2 * k
}

fn length<W: Word>(words: &[W]) -> Result<(), Refusal> {
    if words.len() != sized(words) {
        return Err(Refusal::at(3, 0));
    }
    Ok(())
}

/// The words of a graph by their records.
#[derive(Clone, Copy)]
pub(crate) struct Parts<'a, W> {
    words: &'a [W],
    pub(crate) a: usize,
    pub(crate) n: usize,
    pub(crate) p: usize,
    pub(crate) k: usize,
}

impl<'a, W: Word> Parts<'a, W> {
    pub(crate) fn of(words: &'a [W]) -> Self {
        let [a, n, p, k] = [1, 2, 3, 4].map(|i| words[i].number());
        Self { words, a, n, p, k }
    }

    fn word(&self, position: usize) -> usize {
        self.words[position].number()
    }

    /// Kind, operand, first link.
    pub(crate) fn condition(&self, c: usize) -> [usize; 3] {
        [0, 1, 2].map(|field| self.word(5 + 3 * c + field))
    }

    /// Body + 1, first head link.
    pub(crate) fn rule(&self, r: usize) -> [usize; 2] {
        [0, 1].map(|field| self.word(5 + 3 * self.n + 2 * r + field))
    }

    /// Value, next. Links are numbered from 1.
    fn link(&self, l: usize) -> [usize; 2] {
        [0, 1].map(|field| self.word(5 + 3 * self.n + 2 * self.p + 2 * (l - 1) + field))
    }

    fn bad_condition(&self, c: usize) -> bool {
        let [kind, operand, first] = self.condition(c);
        let is_atom = kind == 1;
        let has_links = kind == 2 || kind == 3;
        kind > 7
            || (is_atom && operand >= self.a)
            || (!is_atom && operand != 0)
            || first > self.k
            || (!has_links && first != 0)
    }

    fn bad_rule(&self, r: usize) -> bool {
        let [body_after, first] = self.rule(r);
        body_after > self.n || first > self.k
    }

    /// The links along the chain from `first`; link 0 ends it.
    fn links(self, first: usize) -> impl Iterator<Item = usize> + 'a {
        let link = |l: usize| (l != 0).then_some(l);
        std::iter::successors(link(first), move |&l| link(self.link(l)[1]))
    }

    /// The values along a chain, which does not come back.
    fn chain(self, first: usize) -> impl Iterator<Item = usize> + 'a {
        self.links(first).map(move |l| self.link(l)[0])
    }

    pub(crate) fn leaves(self, c: usize) -> impl Iterator<Item = usize> + 'a {
        self.chain(self.condition(c)[2])
    }

    pub(crate) fn heads(self, r: usize) -> impl Iterator<Item = usize> + 'a {
        self.chain(self.rule(r)[1])
    }
}

/// The links met in one chain after another: each has the number of the first
/// chain that met it, from 1.
struct Met {
    chains: Vec<usize>,
    chain: usize,
}

impl Met {
    fn new(links: usize) -> Self {
        Self {
            chains: vec![0; links + 1],
            chain: 0,
        }
    }

    /// Whether the next chain comes back to one of its own links. No chain before
    /// it did, so that a link of one of them leads to the end.
    fn come_back(&mut self, links: impl Iterator<Item = usize>) -> bool {
        self.chain += 1;
        for link in links {
            if self.chains[link] != 0 {
                return self.chains[link] == self.chain;
            }
            self.chains[link] = self.chain;
        }
        false
    }
}
