//! Pairs of graphs, held to the papers' order by content (request 14).

use std::cmp::Ordering;

use founded::raw;

use crate::agree::Difference;
use crate::calls::Word as _;
use crate::content::Content;
use crate::ours::{GUARD, Lent};
use crate::random::{self, SCALES};
use crate::rng::Rng;
use crate::{content, damage, runs, tiny};

/// The comparison as the archive has it.
pub type Compare = unsafe extern "C" fn(*const u16, usize, *const u16, usize) -> u32;

/// What was compared.
#[derive(Clone, Copy, Debug, Default, PartialEq, Eq)]
pub struct Tally {
    pub pairs: u64,
    /// Refused: the first graph, or the second alone.
    pub first_refused: u64,
    pub second_refused: u64,
    pub less: u64,
    pub equal: u64,
    /// Equal of those with other words.
    pub renumbered: u64,
    pub greater: u64,
}

impl Tally {
    pub fn add(&mut self, other: &Self) {
        self.pairs += other.pairs;
        self.first_refused += other.first_refused;
        self.second_refused += other.second_refused;
        self.less += other.less;
        self.equal += other.equal;
        self.renumbered += other.renumbered;
        self.greater += other.greater;
    }
}

/// A comparison, with the memory lent to it.
pub struct Pairs {
    compare: Compare,
    graph: Lent<u16>,
    other: Lent<u16>,
    pub tally: Tally,
}

impl Pairs {
    pub fn new(compare: Compare) -> Self {
        let mut rng = Rng::new(14);
        let guard = [(); GUARD].map(|()| u16::cut(rng.word()));
        Self {
            compare,
            graph: Lent::new(guard),
            other: Lent::new(guard),
            tally: Tally::default(),
        }
    }

    /// Both ways round, and each with itself.
    ///
    /// # Errors
    /// The first answer that is not the papers', or memory that was written.
    pub fn all(&mut self, words: &[u16], other: &[u16]) -> Result<(), Difference> {
        for (x, y) in [
            (words, other),
            (other, words),
            (words, words),
            (other, other),
        ] {
            self.one(x, y)?;
        }
        Ok(())
    }

    fn one(&mut self, words: &[u16], other: &[u16]) -> Result<(), Difference> {
        let expected = paper::compare(words, other);
        self.count(words, other, &expected);
        let due = match &expected {
            Ok(Ordering::Equal) => (0, 0),
            Ok(Ordering::Less) => (0, 1),
            Ok(Ordering::Greater) => (0, 2),
            Err(refusal) => (u32::from(refusal.number), refusal.place),
        };
        self.graph.lend(words.iter().copied());
        self.other.lend(other.iter().copied());
        // Safety: each slice lies within a buffer of its own.
        let found = unsafe {
            (self.compare)(
                self.graph.start(),
                words.len(),
                self.other.start(),
                other.len(),
            )
        };
        let found = u16::parts(found);
        let what = if found != due {
            format!("our compare: {found:?}, document {due:?}, with {other:?}")
        } else if !self.graph.holds() {
            "our compare wrote to the first graph or beside it".into()
        } else if !self.other.holds() {
            "our compare wrote to the second graph or beside it".into()
        } else {
            return Ok(());
        };
        Err(Difference {
            what,
            edition: 1,
            words: words.iter().copied().map(u32::from).collect(),
            masks: None,
        })
    }

    fn count(&mut self, words: &[u16], other: &[u16], expected: &Result<Ordering, paper::Refusal>) {
        let tally = &mut self.tally;
        tally.pairs += 1;
        match expected {
            Ok(Ordering::Less) => tally.less += 1,
            Ok(Ordering::Equal) => {
                tally.equal += 1;
                tally.renumbered += u64::from(words != other);
            }
            Ok(Ordering::Greater) => tally.greater += 1,
            Err(_) if paper::check(words).is_err() => tally.first_refused += 1,
            Err(_) => tally.second_refused += 1,
        }
    }
}

/// A family of pairs, compared up to the first difference.
pub type Compared = Result<Tally, Box<Difference>>;

/// Every content within the counts, each beside each, the second one's links the
/// other way round.
///
/// # Errors
/// The first difference.
pub fn contents(boxes: &[runs::ContentBox], compare: Compare) -> Compared {
    let mut all = Vec::new();
    for sizes in runs::tiny_sizes(boxes) {
        tiny::each_content(sizes, |content| all.push(content.words()));
    }
    let mut pairs = Pairs::new(compare);
    for x in &all {
        for y in &all {
            pairs.one(x, &random::turned(y))?;
        }
    }
    Ok(pairs.tally)
}

/// Every word pattern of these counts beside each of a few graphs of the same
/// counts that are accepted.
///
/// # Errors
/// The first difference.
pub fn patterns(counts: [u16; 4], compare: Compare) -> Compared {
    let mut accepted: Vec<Vec<u16>> = Vec::new();
    let mut all: Vec<Vec<u16>> = Vec::new();
    tiny::each_pattern(counts, |words| {
        if paper::check(words).is_ok() {
            accepted.push(words.to_vec());
        }
        all.push(words.to_vec());
    });
    let mut pairs = Pairs::new(compare);
    let step = (accepted.len() / 8).max(1);
    for x in accepted.iter().step_by(step) {
        for y in &all {
            pairs.one(x, y)?;
            pairs.one(y, x)?;
        }
    }
    Ok(pairs.tally)
}

/// Random graphs `from` up to `to`, each beside itself under other numbers of its
/// links and in links of its own, beside copies that differ at one place and these
/// beside each other, a damaged copy and another graph.
///
/// # Errors
/// The first difference.
pub fn graphs(seed: u64, from: u64, to: u64, compare: Compare) -> Compared {
    let mut pairs = Pairs::new(compare);
    for i in from..to {
        let mut rng = runs::numbered(seed ^ PAIRS, i);
        let scale = SCALES[if i % 500 == 499 { 3 } else { (i % 3) as usize }];
        let words: Vec<u16> = random::graph(&mut rng, scale);
        let other: Vec<u16> = random::graph(&mut rng, scale);
        let damaged = damage::copy(&mut rng, &words);
        pairs.all(&words, &random::renumbered(&mut rng, &words))?;
        pairs.all(&words, &random::turned(&words))?;
        pairs.all(&words, &other)?;
        pairs.all(&words, &random::renumbered(&mut rng, &other))?;
        pairs.all(&damaged, &other)?;
        pairs.all(&damaged, &words)?;
        pairs.all(&damaged, &damage::copy(&mut rng, &other))?;
        if paper::check(&words).is_err() {
            continue;
        }
        pairs.all(&words, &decoded(&words).words())?;
        let mut before = words.clone();
        for _ in 0..4 {
            let near = nearly(&mut rng, &words);
            pairs.all(&words, &near)?;
            pairs.all(&random::renumbered(&mut rng, &words), &near)?;
            pairs.all(&before, &near)?;
            before = near;
        }
    }
    Ok(pairs.tally)
}

/// What the generators of these graphs differ in from those of the random ones.
const PAIRS: u64 = 0x1414_0000_0000_0000;

/// The same graph with one thing of its content changed, each list in links of its
/// own: a count, or of one node or producer its kind, its operand, its body, or in its
/// list a value, an entry more or an entry less. Mostly the check accepts it.
fn nearly(rng: &mut Rng, words: &[u16]) -> Vec<u16> {
    let mut content = decoded(words);
    let (nodes, rules) = (content.nodes.len(), content.rules.len());
    let at = rng.below(nodes + rules + 1);
    if at < nodes {
        let atoms = content.atoms;
        let node = &mut content.nodes[at];
        match rng.below(3) {
            0 if node.kind >= content::IMPLIES => {
                node.kind = content::IMPLIES + rng.below(4) as u16;
            }
            1 if node.kind == content::ATOM => node.operand = rng.below(usize::from(atoms)) as u16,
            _ if node.leaves.is_empty() && rng.chance(1, 2) => node.kind = rng.below(8) as u16,
            _ => change(rng, &mut node.leaves, at),
        }
    } else if at < nodes + rules {
        let atoms = usize::from(content.atoms);
        let rule = &mut content.rules[at - nodes];
        if rng.chance(1, 3) {
            rule.body = rng.below(nodes + 1) as u16;
        } else {
            change(rng, &mut rule.heads, atoms);
        }
    } else {
        content.atoms += 1;
    }
    content.words()
}

/// The content of words that the check accepts.
fn decoded(words: &[u16]) -> Content {
    let at = |i: usize| usize::from(words[i]);
    let (nodes, rules) = (at(2), at(3));
    let list = |mut link: usize| {
        let mut values = vec![];
        while link != 0 {
            let record = 5 + 3 * nodes + 2 * rules + 2 * (link - 1);
            values.push(words[record]);
            link = at(record + 1);
        }
        values
    };
    let node = |n: usize| {
        let record = 5 + 3 * n;
        content::node(words[record], words[record + 1], &list(at(record + 2)))
    };
    let rule = |r: usize| {
        let record = 5 + 3 * nodes + 2 * r;
        content::rule(words[record], &list(at(record + 1)))
    };
    Content {
        atoms: words[1],
        nodes: (0..nodes).map(node).collect(),
        rules: (0..rules).map(rule).collect(),
    }
}

/// One entry of a list of numbers below the bound changed, added or taken away.
fn change(rng: &mut Rng, list: &mut Vec<u16>, bound: usize) {
    let at = rng.below(list.len() + 1);
    match rng.below(3) {
        0 if at < list.len() => {
            list.remove(at);
        }
        1 if at < list.len() && bound > 0 => list[at] = rng.below(bound) as u16,
        _ if bound > 0 => list.insert(at, rng.below(bound) as u16),
        _ => {}
    }
}

/// The archive's comparison.
pub const ARCHIVE: Compare = raw::founded_compare;

/// The sizes of the tiny contents that are compared pair by pair.
pub const CONTENTS: [runs::ContentBox; 3] = [(1, 1, 1, 2), (0, 2, 0, 2), (2, 0, 1, 2)];

/// Those of the long part.
pub const LONG_CONTENTS: [runs::ContentBox; 3] = [(1, 2, 1, 2), (2, 1, 1, 2), (2, 0, 2, 1)];
