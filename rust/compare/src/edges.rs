//! The refusal table from both sides of each boundary, answers set by hand, in
//! either edition.

use crate::calls::{Word, word};
use crate::content::{self, Draft};

/// Kinds, as numbers of any record.
const FALSE: u32 = content::FALSE as u32;
const ATOM: u32 = content::ATOM as u32;
const AND: u32 = content::AND as u32;
const OR: u32 = content::OR as u32;
const IMPLIES: u32 = content::IMPLIES as u32;
const ABSORBED: u32 = content::ABSORBED as u32;

/// Words with what the graph check must say of them: number and place, or none.
pub struct Edge<W> {
    pub name: String,
    pub words: Vec<W>,
    pub refusal: Option<(u16, u32)>,
}

/// Edges under way. Records are written in 32 bits.
struct List<W>(Vec<Edge<W>>);

impl<W: Word> List<W> {
    fn words(&mut self, name: &str, words: &[u32], refusal: Option<(u16, u32)>) {
        self.0.push(Edge {
            name: name.into(),
            words: words.iter().map(|&number| word(number as usize)).collect(),
            refusal,
        });
    }

    fn draft(&mut self, name: &str, draft: &Draft<u32>, refusal: Option<(u16, u32)>) {
        let mut words = draft.words();
        words[0] = W::EDITION.number;
        self.words(name, &words, refusal);
    }

    fn passes(&mut self, name: &str, draft: &Draft<u32>) {
        self.draft(name, draft, None);
    }

    fn refused(&mut self, name: &str, number: u16, place: u32, draft: &Draft<u32>) {
        self.draft(name, draft, Some((number, place)));
    }
}

/// A number above all that could pass.
fn far<W: Word>() -> u32 {
    W::MAX.into()
}

/// The most of A, N and P; of K; of entries.
fn limits<W: Word>() -> [u32; 3] {
    let edition = W::EDITION;
    [edition.counts, edition.links, edition.entries].map(|limit| limit as u32)
}

pub fn all<W: Word>() -> Vec<Edge<W>> {
    let mut list = List(vec![]);
    header(&mut list);
    length(&mut list);
    nodes(&mut list);
    first_links(&mut list);
    rules(&mut list);
    links(&mut list);
    circles(&mut list);
    circles_of_nodes(&mut list);
    leaf_chains(&mut list);
    head_chains(&mut list);
    totals(&mut list);
    after_the_totals(&mut list);
    order(&mut list);
    counts(&mut list);
    if W::BITS > 16 {
        upper_halves(&mut list);
    }
    list.0
}

fn draft(atoms: u32, nodes: &[[u32; 3]], rules: &[[u32; 2]], links: &[[u32; 2]]) -> Draft<u32> {
    Draft {
        atoms,
        nodes: nodes.to_vec(),
        rules: rules.to_vec(),
        links: links.to_vec(),
    }
}

/// Row 1.
fn header<W: Word>(list: &mut List<W>) {
    let edition = W::EDITION.number;
    let [most, ..] = limits::<W>();
    for length in 0..=4 {
        list.words(
            "fewer than 5 words",
            &[edition, 0, 0, 0][..length],
            Some((1, 0)),
        );
    }
    list.words("five words", &[edition, 0, 0, 0, 0], None);
    let others: &[u32] = match edition {
        1 => &[0, 2, 256, 65_535],
        _ => &[0, 1, 3, 512, 65_537, 65_538, 131_072, u32::MAX],
    };
    for &other in others {
        list.words("another edition", &[other, 0, 0, 0, 0], Some((1, 0)));
    }
    let other = 3 - edition;
    list.words(
        "edition before limits",
        &[other, most + 1, 0, 0, 0],
        Some((1, 0)),
    );
    list.words(
        "edition before length",
        &[other, 0, 0, 0, 0, 0],
        Some((1, 0)),
    );
}

/// Row 3.
fn length<W: Word>(list: &mut List<W>) {
    let edition = W::EDITION.number;
    list.words(
        "too long by a word",
        &[edition, 0, 0, 0, 0, 0],
        Some((3, 0)),
    );
    let mut whole = draft(1, &[[ATOM, 0, 0]], &[[1, 1]], &[[0, 0]]).words();
    whole[0] = edition;
    list.words("exact length", &whole, None);
    list.words(
        "too short by a word",
        &whole[..whole.len() - 1],
        Some((3, 0)),
    );
    list.words("header alone", &whole[..5], Some((3, 0)));
    list.words(
        "too long by two words",
        &[&whole[..], &[0, 0]].concat(),
        Some((3, 0)),
    );
    list.words(
        "length before records",
        &[edition, 0, 1, 0, 0, 8, 0],
        Some((3, 0)),
    );
}

/// Row 4.
fn nodes<W: Word>(list: &mut List<W>) {
    let one = |node: [u32; 3]| draft(2, &[node], &[], &[[0, 0]]);
    for kind in 0..=7 {
        list.passes("each kind", &one([kind, 0, 0]));
    }
    for kind in [8, 9, 256, far::<W>()] {
        list.refused("kind above 7", 4, 0, &one([kind, 0, 0]));
    }
    list.passes("operand one below A", &one([ATOM, 1, 0]));
    list.refused("operand equal to A", 4, 0, &one([ATOM, 2, 0]));
    list.refused("operand far above A", 4, 0, &one([ATOM, far::<W>(), 0]));
    list.refused(
        "Atom without atoms",
        4,
        0,
        &draft(0, &[[ATOM, 0, 0]], &[], &[]),
    );
    for kind in [FALSE, AND, OR, IMPLIES, 5, 6, ABSORBED] {
        list.refused("operand of another kind", 4, 0, &one([kind, 1, 0]));
    }
}

/// Row 4, its first links.
fn first_links<W: Word>(list: &mut List<W>) {
    let one = |node: [u32; 3]| draft(2, &[node], &[], &[[0, 0]]);
    for kind in [FALSE, ATOM, IMPLIES, 5, 6, ABSORBED] {
        list.refused("links outside And and Or", 4, 0, &one([kind, 0, 1]));
        list.refused(
            "first link above K outside And and Or",
            4,
            0,
            &one([kind, 0, 2]),
        );
    }
    for kind in [AND, OR] {
        let below = [FALSE, 0, 0];
        list.passes(
            "first link equal to K",
            &draft(2, &[below, [kind, 0, 1]], &[], &[[0, 0]]),
        );
        list.refused(
            "first link above K",
            4,
            1,
            &draft(2, &[below, [kind, 0, 2]], &[], &[[0, 0]]),
        );
        list.refused(
            "first link without links",
            4,
            0,
            &draft(2, &[[kind, 0, 1]], &[], &[]),
        );
    }
    let two = draft(1, &[[FALSE, 0, 0], [8, 0, 0], [9, 0, 0]], &[], &[]);
    list.refused("first of two bad nodes", 4, 1, &two);
}

/// Row 5.
fn rules<W: Word>(list: &mut List<W>) {
    let nodes = [[FALSE, 0, 0], [FALSE, 0, 0]];
    let with = |rules: &[[u32; 2]]| draft(1, &nodes, rules, &[[0, 0], [0, 0]]);
    list.passes("body + 1 equal to N", &with(&[[2, 1]]));
    list.refused("body + 1 above N", 5, 0, &with(&[[3, 1]]));
    list.refused("body + 1 above N, no heads", 5, 0, &with(&[[3, 0]]));
    list.refused("body + 1 far above N", 5, 0, &with(&[[far::<W>(), 0]]));
    list.passes("first head link equal to K", &with(&[[0, 2]]));
    list.refused("first head link above K", 5, 0, &with(&[[0, 3]]));
    list.refused("a body without nodes", 5, 0, &draft(1, &[], &[[1, 0]], &[]));
    list.refused(
        "head link without links",
        5,
        0,
        &draft(1, &[], &[[0, 1]], &[]),
    );
    list.refused(
        "first of two bad rules",
        5,
        1,
        &with(&[[0, 0], [3, 0], [0, 3]]),
    );
}

/// Row 6.
fn links<W: Word>(list: &mut List<W>) {
    let with = |first: u32, links: &[[u32; 2]]| draft(1, &[], &[[0, first]], links);
    list.passes("next one above", &with(1, &[[0, 2], [0, 0]]));
    list.passes("next one below", &with(2, &[[0, 0], [0, 1]]));
    list.passes("next equal to K", &with(1, &[[0, 3], [0, 0], [0, 0]]));
    list.refused("next above K", 6, 1, &with(1, &[[0, 2]]));
    let far = [[0, 2], [0, far::<W>()]];
    list.refused("next far above K", 6, 2, &with(1, &far));
    let unused = [[0, 0], [0, 3]];
    list.refused("unused link with next above K", 6, 2, &with(1, &unused));
    let two = [[0, 0], [0, 4], [0, 5]];
    list.refused("first of two bad links", 6, 2, &with(1, &two));
    let wild = [[0, 0], [W::MAX.into(), 0]];
    list.passes("unused link with a wild value", &with(1, &wild));
    for (name, next) in [("into a chain", 3), ("into another", 1)] {
        let links = [[0, 3], [9, next], [0, 0]];
        list.passes(&format!("unused link {name}"), &with(1, &links));
    }
}

/// Row 14, of rules: a chain comes back, or a circle is in no chain.
fn circles<W: Word>(list: &mut List<W>) {
    let with = |first: u32, links: &[[u32; 2]]| draft(1, &[], &[[0, first]], links);
    let edition = W::EDITION.number;
    let entered = [edition, 1, 1, 1, 3, 1, 0, 0, 1, 1, 0, 2, 0, 3, 0, 2];
    list.words("request 5's circle", &entered, Some((14, 0)));
    let lone = [edition, 0, 0, 0, 1, 0, 1];
    list.words("request 5's lone circle", &lone, None);
    for (name, first, links) in [
        ("an own link", 1, &[[0, 1]][..]),
        ("an own link behind another", 1, &[[0, 2], [0, 2]]),
        ("an own link before another", 2, &[[0, 1], [0, 1]]),
        ("two links", 1, &[[0, 2], [0, 1]]),
        ("two links, from the second", 2, &[[0, 2], [0, 1]]),
        ("two links behind another", 1, &[[0, 2], [0, 3], [0, 2]]),
        ("two links before another", 3, &[[0, 2], [0, 1], [0, 1]]),
        ("all links", 3, &[[0, 3], [0, 1], [0, 2]]),
        ("its first link again", 2, &[[0, 3], [0, 1], [0, 2]]),
    ] {
        list.refused(name, 14, 0, &with(first, links));
    }
    for (name, first, links) in [
        ("an own link in no chain", 1, &[[0, 0], [0, 2]][..]),
        ("two in no chain", 3, &[[9, 2], [9, 1], [0, 0]]),
        (
            "a way into a circle, in no chain",
            1,
            &[[0, 0], [9, 3], [9, 3]],
        ),
        ("K links downward", 3, &[[0, 0], [0, 1], [0, 2]]),
        ("K links in another order", 1, &[[0, 3], [0, 0], [0, 2]]),
        ("no chain at all", 0, &[[9, 2], [9, 1], [9, 3]]),
    ] {
        list.passes(name, &with(first, links));
    }
    let own = [[0, 0], [0, 2], [0, 3]];
    let rules = |firsts: &[u32]| draft(1, &[], &facts(firsts), &own);
    list.refused("the last rule's", 14, 2, &rules(&[0, 1, 2]));
    list.refused("first of two rules", 14, 1, &rules(&[1, 3, 2]));
    let tail = [[0, 3], [0, 3], [0, 3]];
    let shared = draft(1, &[], &facts(&[0, 2, 1]), &tail);
    list.refused("a shared tail with a circle", 14, 1, &shared);
    longest(list);
}

/// Row 14 on the most links: all different, then the last leads back.
fn longest<W: Word>(list: &mut List<W>) {
    let [_, last, _] = limits::<W>();
    let mut down: Vec<[u32; 2]> = (0..last).map(|next| [0, next]).collect();
    let with = |links: &[[u32; 2]]| draft(1, &[], &[[0, last]], links);
    list.passes("the most links downward", &with(&down));
    down[0][1] = last;
    list.refused("the most links in a circle", 14, 0, &with(&down));
    down[0][1] = 1;
    list.refused("the most links, then an own one", 14, 0, &with(&down));
}

/// Row 14, of nodes, and before which rows it stands.
fn circles_of_nodes<W: Word>(list: &mut List<W>) {
    let f = [FALSE, 0, 0];
    for kind in [AND, OR] {
        let node = |links: &[[u32; 2]]| draft(1, &[f, f, [kind, 0, 1]], &[], links);
        list.refused("a node's own link", 14, 2, &node(&[[0, 1]]));
        let entered = [[0, 3], [0, 0], [0, 3]];
        list.refused("a node's circle from outside", 14, 2, &node(&entered));
        list.passes("leaves downward", &node(&[[1, 3], [0, 0], [1, 2]]));
        list.passes("a circle beside a node", &node(&[[1, 0], [9, 2]]));
    }
    let nodes = |firsts: &[u32], rules: &[u32], links: &[[u32; 2]]| {
        draft(1, &conjunctions(firsts), &facts(rules), links)
    };
    let own = [[0, 0], [0, 2], [0, 3]];
    list.refused("first of two nodes", 14, 2, &nodes(&[1, 3, 2], &[], &own));
    list.refused("a node before a rule", 14, 2, &nodes(&[1, 2], &[2], &own));
    list.refused("a rule and no node", 14, 1, &nodes(&[1, 1], &[1, 2], &own));
    let above = [[0, 1], [0, 3]];
    list.refused("6 before 14", 6, 2, &nodes(&[1], &[1], &above));
    let leaf = [[0, 1], [9, 0]];
    list.refused(
        "14 of a later node before 7",
        14,
        2,
        &nodes(&[2, 1], &[], &leaf),
    );
    list.refused("14 of a rule before 7", 14, 1, &nodes(&[2], &[0, 1], &leaf));
    list.refused("14 and 7 of one node", 14, 1, &nodes(&[1], &[], &[[9, 1]]));
    list.refused("14 and 8 of one rule", 14, 0, &nodes(&[], &[1], &[[9, 1]]));
    list.refused(
        "14 of a later rule before 8",
        14,
        1,
        &nodes(&[], &[2, 1], &leaf),
    );
}

/// Row 7.
fn leaf_chains<W: Word>(list: &mut List<W>) {
    let f = [FALSE, 0, 0];
    for kind in [AND, OR] {
        let leaf = |value| draft(1, &[f, f, [kind, 0, 1], f], &[], &[[value, 0]]);
        list.passes("leaf one below its node", &leaf(1));
        list.refused("leaf equal to its node", 7, 2, &leaf(2));
        list.refused("leaf one above its node", 7, 2, &leaf(3));
        list.refused("leaf not below N", 7, 2, &leaf(far::<W>()));
        list.refused(
            "a leaf of node 0",
            7,
            0,
            &draft(1, &[[kind, 0, 1]], &[], &[[0, 0]]),
        );
        let second = draft(1, &[f, f, [kind, 0, 1]], &[], &[[1, 2], [2, 0]]);
        list.refused("second leaf wrong", 7, 2, &second);
    }
    let shared = [f, [AND, 0, 2], [OR, 0, 1], [AND, 0, 1]];
    list.passes(
        "shared tail fits both",
        &draft(1, &shared, &[], &[[1, 2], [0, 0]]),
    );
    list.refused(
        "shared tail fits one",
        7,
        1,
        &draft(1, &shared, &[], &[[1, 2], [1, 0]]),
    );
    let two = [f, [AND, 0, 1], [OR, 0, 2]];
    list.refused(
        "first of two bad nodes",
        7,
        1,
        &draft(1, &two, &[], &[[1, 0], [2, 0]]),
    );
}

/// Row 8.
fn head_chains<W: Word>(list: &mut List<W>) {
    let head = |value| draft(2, &[], &[[0, 0], [0, 1]], &[[value, 0]]);
    list.passes("head one below A", &head(1));
    list.refused("head equal to A", 8, 1, &head(2));
    list.refused("head far above A", 8, 1, &head(far::<W>()));
    list.refused(
        "a head without atoms",
        8,
        0,
        &draft(0, &[], &[[0, 1]], &[[0, 0]]),
    );
    let second = draft(2, &[], &[[0, 1]], &[[1, 2], [2, 0]]);
    list.refused("second head wrong", 8, 0, &second);
    let two = draft(2, &[], &[[0, 0], [0, 1], [0, 2]], &[[2, 0], [3, 0]]);
    list.refused("first of two bad rules", 8, 1, &two);
    let absorbed = draft(1, &[[ABSORBED, 0, 0]], &[[1, 0]], &[]);
    list.passes("no heads, a body of kind 7", &absorbed);
}

/// A chain of that many links, all of value 0.
fn long_chain(length: u32) -> Vec<[u32; 2]> {
    (1..=length)
        .map(|own| [0, if own < length { own + 1 } else { 0 }])
        .collect()
}

/// A False, then an And from each first link.
fn conjunctions(firsts: &[u32]) -> Vec<[u32; 3]> {
    let ands = firsts.iter().map(|&first| [AND, 0, first]);
    std::iter::once([FALSE, 0, 0]).chain(ands).collect()
}

fn facts(firsts: &[u32]) -> Vec<[u32; 2]> {
    firsts.iter().map(|&first| [0, first]).collect()
}

/// How often the longest chain is shared, at most: as often as 16 bits have
/// room for its entries, and no more than can be walked in a moment.
fn shares<W: Word>() -> [usize; 2] {
    let moment = 4_194_304 / W::EDITION.entries;
    [16, W::EDITION.counts - 1].map(|times| times.min(moment))
}

/// Row 9, from both sides, with and without shared tails.
fn totals<W: Word>(list: &mut List<W>) {
    let [_, _, most] = limits::<W>();
    let long = long_chain(most);
    let leaves = |firsts: &[u32]| draft(1, &conjunctions(firsts), &[], &long);
    let heads = |firsts: &[u32]| draft(1, &[], &facts(firsts), &long);
    let name = |entries: u32, what: &str| format!("{entries} {what}");
    list.passes(&name(most, "leaf entries"), &leaves(&[1]));
    list.refused(&name(most + 1, "leaf entries"), 9, 0, &leaves(&[1, most]));
    list.passes(
        &name(most, "leaf entries by a shared tail"),
        &leaves(&[2, most]),
    );
    list.passes(&name(most, "head entries"), &heads(&[1]));
    list.refused(&name(most + 1, "head entries"), 9, 0, &heads(&[1, most]));
    list.passes(
        &name(most, "head entries by a shared tail"),
        &heads(&[2, most]),
    );
    let [times, all] = shares::<W>();
    let many = times as u32 * most;
    list.refused(&name(many, "leaf entries"), 9, 0, &leaves(&vec![1; times]));
    list.refused(
        &name(many + 1, "leaf entries"),
        9,
        0,
        &leaves(&[&vec![1; times][..], &[most]].concat()),
    );
    let more = name(many + most, "leaf entries");
    list.refused(&more, 9, 0, &leaves(&vec![1; times + 1]));
    list.refused(&name(many, "head entries"), 9, 0, &heads(&vec![1; times]));
    let more = name(many + most, "head entries");
    list.refused(&more, 9, 0, &heads(&vec![1; times + 1]));
    list.refused(
        "all nodes share the longest chain",
        9,
        0,
        &leaves(&vec![1; all]),
    );
    let both = draft(1, &conjunctions(&[1]), &facts(&[1]), &long);
    list.passes("the most leaf and head entries", &both);
    let down: Vec<[u32; 2]> = (0..most).map(|next| [0, next]).collect();
    let firsts = vec![most; times];
    let walked = draft(1, &conjunctions(&firsts), &facts(&firsts), &down);
    list.refused(
        "nodes and rules share the longest chain, downward",
        9,
        0,
        &walked,
    );
    let unsunk = draft(1, &conjunctions(&[1]), &[[0, 0]], &long);
    list.passes("the most leaf entries outside every cone", &unsunk);
}

/// A 7 or an 8 that comes after the totals are exceeded.
fn after_the_totals<W: Word>(list: &mut List<W>) {
    let [_, _, most] = limits::<W>();
    let mut links = long_chain(most - 1);
    links.push([4, 0]);
    let nodes = conjunctions(&[1, 1, 1, most]);
    list.refused(
        "7 after three times too many leaf entries",
        7,
        4,
        &draft(9, &nodes, &[], &links),
    );
    let rules = facts(&[1, 1, most]);
    list.refused(
        "8 after twice too many head entries",
        8,
        2,
        &draft(1, &[], &rules, &links),
    );
    let nodes = conjunctions(&[1, 1]);
    let last = facts(&[0, most]);
    list.refused(
        "8 after twice too many leaf entries",
        8,
        1,
        &draft(1, &nodes, &last, &links),
    );
    let [times, _] = shares::<W>();
    let wrong = times as u32 + 1;
    links[most as usize - 1] = [wrong, 0];
    let nodes = conjunctions(&[&vec![1; times][..], &[most]].concat());
    list.refused(
        "7 after far too many leaf entries",
        7,
        wrong,
        &draft(1, &nodes, &[], &links),
    );
}

/// Rows 4 to 9 and 14 of one graph, each fault mended in turn.
fn order<W: Word>(list: &mut List<W>) {
    let [_, last, _] = limits::<W>();
    let mut links = long_chain(last - 2);
    links.extend([[1, 0], [9, last + 1]]);
    let mut graph = draft(
        1,
        &[[FALSE, 0, 0], [8, 0, 0], [AND, 0, last - 1]],
        &[[9, 0], [0, last]],
        &links,
    );
    graph.nodes.extend(conjunctions(&[1, 1]));
    list.refused("4 before 5", 4, 1, &graph);
    graph.nodes[1] = [AND, 0, last - 1];
    list.refused("5 before 6", 5, 0, &graph);
    graph.rules[0] = [0, 0];
    list.refused("6 before 7", 6, last, &graph);
    let at = last as usize - 1;
    graph.links[at][1] = last;
    list.refused("14 before 7", 14, 1, &graph);
    graph.links[at][1] = 0;
    list.refused("7 before 8", 7, 1, &graph);
    graph.nodes[1] = [FALSE, 0, 0];
    list.refused("8 before 9", 8, 1, &graph);
    graph.links[at][0] = 0;
    list.refused("9 at last", 9, 0, &graph);
    graph.nodes[4] = [FALSE, 0, 0];
    list.passes("all mended", &graph);
}

/// Row 2.
fn counts<W: Word>(list: &mut List<W>) {
    let [most, most_links, _] = limits::<W>();
    let sized = |a: u32, n: u32, p: u32, k: u32| {
        let (f, r, l) = ([FALSE, 0, 0], [0, 0], [7, 0]);
        let (n, p, k) = (n as usize, p as usize, k as usize);
        draft(a, &vec![f; n], &vec![r; p], &vec![l; k])
    };
    let name = |count: u32, what: &str| format!("{count} {what}");
    list.passes(&name(most, "atoms"), &sized(most, 0, 0, 0));
    for atoms in [most + 1, far::<W>()] {
        list.refused(&name(atoms, "atoms"), 2, 0, &sized(atoms, 0, 0, 0));
    }
    list.passes(&name(most, "nodes"), &sized(0, most, 0, 0));
    list.refused(&name(most + 1, "nodes"), 2, 0, &sized(0, most + 1, 0, 0));
    list.passes(&name(most, "rules"), &sized(0, 0, most, 0));
    list.refused(&name(most + 1, "rules"), 2, 0, &sized(0, 0, most + 1, 0));
    list.passes(&name(most_links, "links"), &sized(0, 0, 0, most_links));
    let more = &name(most_links + 1, "links");
    list.refused(more, 2, 0, &sized(0, 0, 0, most_links + 1));
    list.passes(
        "all counts at their limits",
        &sized(most, most, most, most_links),
    );
    for counts in [
        [0, most + 1, 0, 0],
        [0, 0, most + 1, 0],
        [0, 0, 0, most_links + 1],
        [0, 0, 0, far::<W>()],
    ] {
        let words = [&[W::EDITION.number][..], &counts].concat();
        list.words("limits before length", &words, Some((2, 0)));
    }
}

/// Numbers and places that 16 bits have no room for, and numbers that would pass
/// without their upper half.
fn upper_halves<W: Word>(list: &mut List<W>) {
    const HALF: u32 = 65_536;
    let last = HALF + 4_464;
    let f = [FALSE, 0, 0];
    let with = |nodes: &[[u32; 3]], rules: &[[u32; 2]], links: &[[u32; 2]]| {
        draft(last + 1, nodes, rules, links)
    };
    for (name, node) in [
        ("a kind's upper half", [HALF + ATOM, 0, 0]),
        ("an operand's upper half", [ATOM, 2 * HALF, 0]),
        ("another operand's upper half", [AND, HALF, 0]),
        ("a first link's upper half", [AND, 0, HALF]),
    ] {
        list.refused(name, 4, 1, &with(&[f, node], &[], &[[0, 0]]));
    }
    for (name, rule) in [
        ("a body's upper half", [HALF, 0]),
        ("a first head link's upper half", [0, HALF]),
    ] {
        list.refused(name, 5, 0, &with(&[f], &[rule], &[[0, 0]]));
    }
    let next = with(&[], &[], &[[0, HALF + 2], [0, 0]]);
    list.refused("a next's upper half", 6, 1, &next);
    let leaf = with(&[f, [AND, 0, 1]], &[], &[[HALF, 0]]);
    list.refused("a leaf's upper half", 7, 1, &leaf);
    let head = with(&[], &[[0, 1]], &[[2 * HALF, 0]]);
    list.refused("a head's upper half", 8, 0, &head);
    for counts in [[HALF, 0, 0], [0, HALF, 0], [0, 0, HALF]] {
        let words = [&[W::EDITION.number, 0], &counts[..]].concat();
        list.words("a length's upper half", &words, Some((3, 0)));
    }
    list.words(
        "a length of more than 32 bits",
        &[W::EDITION.number, 0, 0, 1 << 31, 0],
        Some((2, 0)),
    );

    let many = last as usize;
    let named = with(&[f, [ATOM, last, 0]], &[[2, 1]], &[[last, 0]]);
    list.passes("a head and an operand above 65535", &named);
    let mut nodes = vec![f; many];
    nodes.push([8, 0, 0]);
    list.refused("4 above 65535", 4, last, &with(&nodes, &[], &[]));
    nodes[many] = [AND, 0, 1];
    list.refused("7 above 65535", 7, last, &with(&nodes, &[], &[[last, 0]]));
    list.passes("a leaf above 65535", &with(&nodes, &[], &[[last - 1, 0]]));
    list.refused(
        "14 of a node above 65535",
        14,
        last,
        &with(&nodes, &[], &[[0, 1]]),
    );
    nodes[many] = [ABSORBED, 0, 0];
    list.passes("12 above 65535", &with(&nodes, &[[last + 1, 1]], &[[0, 0]]));
    list.passes(
        "kind 7 above 65535, no heads",
        &with(&nodes, &[[last + 1, 0]], &[]),
    );
    let mut rules = vec![[0, 0]; many];
    rules.push([1, 0]);
    list.refused("5 above 65535", 5, last, &with(&[], &rules, &[]));
    rules[many] = [0, 1];
    let beyond = with(&[], &rules, &[[last + 1, 0]]);
    list.refused("8 above 65535", 8, last, &beyond);
    list.refused(
        "14 of a rule above 65535",
        14,
        last,
        &with(&[], &rules, &[[0, 1]]),
    );
    let mut links = vec![[0, 0]; many - 1];
    links.push([0, last + 1]);
    list.refused("6 above 65535", 6, last, &with(&[], &[], &links));
    links[many - 1] = [0, last];
    list.passes("an own link above 65535", &with(&[], &[], &links));
    let reached = with(&[], &[[0, last]], &links);
    list.refused("an own link above 65535 in a chain", 14, 0, &reached);
    links[many - 1] = [0, last - HALF];
    list.passes("a next far below", &with(&[], &[[0, last]], &links));
}

/// More entries than 32 bits can count, exactly as many as leave nothing in them:
/// refused 9, after four thousand million links.
pub fn most_walked() -> Vec<u32> {
    let [_, _, most] = limits::<u32>();
    let firsts = vec![1; 4_096];
    draft(1, &conjunctions(&firsts), &[], &long_chain(most)).words()
}

/// Accepted graphs at the edition's limits, with loops through all of them.
pub fn largest<W: Word>() -> Vec<Vec<W>> {
    full(W::EDITION.counts)
}

/// Accepted graphs of that many atoms, nodes and mostly rules, and up to four
/// times as many links; an even number of at least 16.
pub fn full<W: Word>(size: usize) -> Vec<Vec<W>> {
    let size = size as u32;
    let last = size - 1;
    let ring: Vec<[u32; 2]> = (0..=last).map(|p| [p + 1, p + 1]).collect();
    let atoms: Vec<[u32; 3]> = (0..=last).map(|a| [ATOM, a, 0]).collect();
    let heads: Vec<[u32; 2]> = (0..=last).map(|p| [(p + 1) % size, 0]).collect();
    let mut broken = ring.clone();
    broken[last as usize][0] = 0;
    // Half the nodes are Atoms, half Ands and Ors of eight in turn; each rule has four heads.
    let mut half: Vec<[u32; 3]> = (0..size / 2).map(|a| [ATOM, 2 * a + 1, 0]).collect();
    half.extend((0..size / 2).map(|i| [AND + i % 2, 0, 8 * i + 1]));
    let leaf = |i: u32| (i * 5 + i / 8) % (size / 2);
    let grouped: Vec<[u32; 2]> = (0..4 * size)
        .map(|i| [leaf(i), if i % 8 == 7 { 0 } else { i + 2 }])
        .collect();
    let fours: Vec<[u32; 2]> = (0..=last).map(|p| [p + 1, 8 * (p / 2) + 5]).collect();
    // A ladder of Ands: each node waits for the one below it, twice.
    let mut ladder: Vec<[u32; 3]> = vec![[ATOM, 0, 0]];
    ladder.extend((1..=last).map(|n| [AND, 0, 2 * n - 1]));
    let twice: Vec<[u32; 2]> = (1..=last)
        .flat_map(|n| [[n - 1, 2 * n], [n - 1, 0]])
        .collect();
    let ladder_links = [&twice[..], &[[0, 0]]].concat();
    let mut list = List(vec![]);
    for (name, draft) in [
        ("a ring", draft(size, &atoms, &ring, &heads)),
        ("a broken ring", draft(size, &atoms, &broken, &heads)),
        ("groups of eight", draft(size, &half, &fours, &grouped)),
        (
            "a ladder",
            draft(size, &ladder, &[[size, 2 * size - 1]], &ladder_links),
        ),
    ] {
        list.passes(name, &draft);
    }
    list.0.into_iter().map(|edge| edge.words).collect()
}
