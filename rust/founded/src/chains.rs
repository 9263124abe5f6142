//! The chains of a graph that comes from outside. The proved check is lent no memory, and so it walks each chain by itself: up to 2·(N + P)·K links, in edition 2
//! for hours. With memory for what is known of each link, each is walked once.

use crate::{Chain, NodeId, ProducerId, Refusal, Word};

/// A graph's words by their records.
struct Records<'a, W> {
    words: &'a [W],
    atoms: usize,
    nodes: usize,
    producers: usize,
    links: usize,
}

/// What is known of the chain that begins at a link.
#[derive(Clone, Copy, PartialEq, Eq)]
enum Known {
    Nothing,
    /// It is being walked.
    Begun,
    ComesBack,
    /// It has so many links, and every value is below the bound.
    Ends {
        links: u64,
        bound: u64,
    },
}

impl<'a, W: Word> Records<'a, W> {
    /// Rows 1 to 3.
    fn of(words: &'a [W]) -> Result<Self, Refusal> {
        if words.len() < 5 || words[0] != W::EDITION {
            return Err(Refusal::Edition);
        }
        let [atoms, nodes, producers, links] = [1, 2, 3, 4].map(|at| words[at].into() as usize);
        if atoms.max(nodes).max(producers) > W::MOST || links > W::MOST_ENTRIES {
            return Err(Refusal::Counts);
        }
        if words.len() != 5 + 3 * nodes + 2 * producers + 2 * links {
            return Err(Refusal::Size);
        }
        Ok(Self {
            words,
            atoms,
            nodes,
            producers,
            links,
        })
    }

    fn record<const WORDS: usize>(&self, at: usize) -> [usize; WORDS] {
        std::array::from_fn(|field| self.words[at + field].into() as usize)
    }

    /// Kind, operand, first link.
    fn node(&self, n: usize) -> [usize; 3] {
        self.record(5 + 3 * n)
    }

    /// Body + 1, first link.
    fn producer(&self, p: usize) -> [usize; 2] {
        self.record(5 + 3 * self.nodes + 2 * p)
    }

    /// Value, next. Links are numbered from 1.
    fn link(&self, l: usize) -> [usize; 2] {
        self.record(5 + 3 * self.nodes + 2 * self.producers + 2 * (l - 1))
    }

    fn bad_node(&self, n: usize) -> bool {
        let [kind, operand, first] = self.node(n);
        let bad_operand = match kind {
            1 => operand >= self.atoms,
            _ => operand != 0,
        };
        let most = match kind {
            2 | 3 => self.links,
            _ => 0,
        };
        kind > 7 || bad_operand || first > most
    }

    fn bad_producer(&self, p: usize) -> bool {
        let [body, first] = self.producer(p);
        body > self.nodes || first > self.links
    }

    /// Rows 4 to 6. After them every first link and every next is at most K.
    fn recorded(&self) -> Result<(), Refusal> {
        if let Some(n) = (0..self.nodes).find(|&n| self.bad_node(n)) {
            return Err(Refusal::Node(NodeId(n as u32)));
        }
        if let Some(p) = (0..self.producers).find(|&p| self.bad_producer(p)) {
            return Err(Refusal::Producer(ProducerId(p as u32)));
        }
        match (1..=self.links).find(|&l| self.link(l)[1] > self.links) {
            Some(link) => Err(Refusal::Link(link as u32)),
            None => Ok(()),
        }
    }

    /// What the chain from each link comes to: a walk goes on until something is known, and then tells all the links that it met.
    fn known(&self) -> Vec<Known> {
        let mut known = vec![Known::Nothing; self.links + 1];
        known[0] = Known::Ends { links: 0, bound: 0 };
        let mut met = Vec::new();
        for first in 1..=self.links {
            let mut link = first;
            while known[link] == Known::Nothing {
                known[link] = Known::Begun;
                met.push(link);
                link = self.link(link)[1];
            }
            let mut found = match known[link] {
                Known::Begun => Known::ComesBack,
                found => found,
            };
            for link in met.drain(..).rev() {
                if let Known::Ends { links, bound } = &mut found {
                    *links += 1;
                    *bound = (*bound).max(self.link(link)[0] as u64 + 1);
                }
                known[link] = found;
            }
        }
        known
    }
}

/// Row 9.
fn too_many<W: Word>(entries: [u64; 2]) -> bool {
    entries
        .iter()
        .any(|&entries| entries > W::MOST_ENTRIES as u64)
}

/// Leaf entries and head entries of all chains that do not come back, and the graph check's answer.
fn checked<W: Word>(words: &[W]) -> ([u64; 2], Result<(), Refusal>) {
    let records = Records::of(words).and_then(|records| records.recorded().map(|()| records));
    let records = match records {
        Ok(records) => records,
        Err(refusal) => return ([0; 2], Err(refusal)),
    };
    let known = records.known();
    let leaves: Vec<Known> = (0..records.nodes)
        .map(|n| known[records.node(n)[2]])
        .collect();
    let heads: Vec<Known> = (0..records.producers)
        .map(|p| known[records.producer(p)[1]])
        .collect();
    let entries = [&leaves, &heads].map(|chains| {
        let length = |chain: &Known| match *chain {
            Known::Ends { links, .. } => links,
            _ => 0,
        };
        chains.iter().map(length).sum::<u64>()
    });

    let back = |chain: &Known| *chain == Known::ComesBack;
    let above = |chain: &Known, most: usize| matches!(*chain, Known::Ends { bound, .. } if bound > most as u64);
    let node = |n: usize| NodeId(n as u32);
    let producer = |p: usize| ProducerId(p as u32);
    let answer = if let Some(n) = leaves.iter().position(back) {
        Err(Refusal::ComesBack(Chain::Node(node(n))))
    } else if let Some(p) = heads.iter().position(back) {
        Err(Refusal::ComesBack(Chain::Producer(producer(p))))
    } else if let Some(n) = (0..leaves.len()).find(|&n| above(&leaves[n], n)) {
        Err(Refusal::Leaf(node(n)))
    } else if let Some(p) = heads.iter().position(|chain| above(chain, records.atoms)) {
        Err(Refusal::Head(producer(p)))
    } else if too_many::<W>(entries) {
        Err(Refusal::Entries)
    } else {
        Ok(())
    };
    (entries, answer)
}

/// The leaf entries and head entries together, in time N + P + K, for a graph on which the proved check is not long: it walks at most twice as many links, and K more.
/// Whether the graph is accepted is left to it.
///
/// # Errors
/// The answer of this crate's own check, where the chains that do not come back have more entries than an accepted graph.
pub fn entries<W: Word>(words: &[W]) -> Result<usize, Refusal> {
    let (entries, answer) = checked(words);
    if too_many::<W>(entries) {
        answer?;
    }
    Ok(entries.iter().sum::<u64>() as usize)
}

/// Whose chain comes back, of a graph that is refused by 14 with this place: the node's of that number if its chain does, since producers are looked at only where no
/// node's chain does.
pub fn whose<W: Word>(words: &[W], place: u32) -> Chain {
    let records = Records::of(words).expect("1 to 3 come before 14");
    let back = |first: usize| {
        (0..records.links).fold(first, |link, _| match link {
            0 => 0,
            _ => records.link(link)[1],
        }) != 0
    };
    let n = place as usize;
    if n < records.nodes && back(records.node(n)[2]) {
        Chain::Node(NodeId(place))
    } else {
        Chain::Producer(ProducerId(place))
    }
}

#[cfg(test)]
mod tests {
    use super::*;
    use crate::calls;

    struct Rng(u64);

    impl Rng {
        /// A number below `end`, which is above 0.
        fn below(&mut self, end: usize) -> usize {
            self.0 ^= self.0 << 13;
            self.0 ^= self.0 >> 7;
            self.0 ^= self.0 << 17;
            (self.0.wrapping_mul(0x2545_f491_4f6c_dd1d) >> 32) as usize % end
        }

        /// At most `most`; rarely one more.
        fn up_to(&mut self, most: usize) -> usize {
            let more = usize::from(self.below(40) == 0);
            self.below(most + 1) + more
        }
    }

    fn word<W: Word>(number: usize) -> W {
        W::try_from(number as u32).ok().expect("a word")
    }

    fn graph<W: Word>(counts: [usize; 4], records: &[usize]) -> Vec<W> {
        let mut words = vec![W::EDITION];
        words.extend(
            counts
                .iter()
                .chain(records)
                .map(|&number| word::<W>(number)),
        );
        words
    }

    /// A graph of few records that are mostly right, with links in any order.
    fn small<W: Word>(rng: &mut Rng) -> Vec<W> {
        let counts @ [_, nodes, producers, links] = [3, 5, 4, 6].map(|most| rng.below(most));
        let mut records = Vec::new();
        for _ in 0..nodes {
            let kind = [1, 2, 3, 7, 8][rng.below(41) / 10];
            let first = if kind == 1 { 0 } else { rng.up_to(links) };
            records.extend([kind, rng.below(9) / 8, first]);
        }
        for _ in 0..producers {
            records.extend([rng.up_to(nodes), rng.up_to(links)]);
        }
        for _ in 0..links {
            records.extend([rng.below(12) / 5, rng.up_to(links)]);
        }
        let mut words = graph(counts, &records);
        match rng.below(30) {
            0 => drop(words.pop()),
            1 => words[0] = W::default(),
            2 => words[1 + rng.below(4)] = word(W::MOST_ENTRIES + 1),
            _ => {}
        }
        words
    }

    /// 65 nodes and 64 producers, most with one chain of all links in some order: as many entries as a graph may have, or a few more. A value may be too great, and the
    /// chain may come back.
    fn crowded<W: Word>(rng: &mut Rng) -> Vec<W> {
        let links = W::MOST_ENTRIES / 64 - 1 + rng.below(4);
        let mut order: Vec<usize> = (1..=links).collect();
        for at in 1..links {
            order.swap(at, rng.below(at + 1));
        }
        let mut of_links = vec![[0, 0]; links];
        for pair in order.windows(2) {
            of_links[pair[0] - 1][1] = pair[1];
        }
        let last = order[links - 1];
        match rng.below(6) {
            0 => of_links[last - 1][1] = order[rng.below(links)],
            1 => of_links[last - 1][0] = 60 + rng.below(9),
            2 => of_links[last - 1][0] = 1,
            _ => {}
        }
        let first = |rng: &mut Rng| match rng.below(200) {
            0 => 0,
            1 => last,
            _ => order[0],
        };
        let mut records = [0; 3].repeat(1 + rng.below(3));
        while records.len() < 3 * 65 {
            records.extend([2, 0, first(rng)]);
        }
        for _ in 0..64 {
            records.extend([0, first(rng)]);
        }
        records.extend(of_links.concat());
        graph([1 + rng.below(2), 65, 64, links], &records)
    }

    /// This crate's own answers on so many graphs are the proved ones. How often each number was given.
    fn held<W: Word>(graphs: usize, make: fn(&mut Rng) -> Vec<W>) -> [usize; 15] {
        let mut rng = Rng(0x9e37_79b9_7f4a_7c15);
        let mut numbers = [0; 15];
        for _ in 0..graphs {
            let words = make(&mut rng);
            let (_, answer) = checked(&words);
            assert_eq!(answer, calls::check(&words), "{words:?}");
            numbers[usize::from(answer.err().map_or(0, Refusal::number))] += 1;
        }
        numbers
    }

    fn both_kinds<W: Word>(graphs: usize, crowds: usize) {
        let numbers = held::<W>(graphs, small);
        for number in [0, 1, 2, 3, 4, 5, 6, 7, 8, 14] {
            assert!(numbers[number] > graphs / 400, "{number}: {numbers:?}");
        }
        let numbers = held::<W>(crowds, crowded);
        for number in [7, 8, 9, 14] {
            assert!(numbers[number] > 0, "{number}: {numbers:?}");
        }
    }

    #[test]
    fn own_answers_are_the_proved_ones() {
        both_kinds::<u16>(100_000, 2_000);
        both_kinds::<u32>(100_000, 60);
    }
}
