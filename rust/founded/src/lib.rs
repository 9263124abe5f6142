//! The founded-support check: which atoms only hold each other up. The calls are proved, in Rattle, to answer on every input as docs/FORMAT.md says;
//! this crate links them (`tools/archive` makes the archive) and adds types. Atoms, nodes and producers are the states, conditions and rules
//! of a plan.
//!
//! The heater is on because the warm-bus latch is set, and the latch is set because the heater is on. Nothing else holds either up, so both are missing:
//!
//! ```
//! use founded::{AtomMask, Node, NodeMask, Solver, Theory};
//!
//! let mut theory = Theory::new();
//! let heater = theory.add_atom()?;
//! let latch = theory.add_atom()?;
//! let heater_on = theory.add_node(Node::Atom(heater))?;
//! let latch_set = theory.add_node(Node::Atom(latch))?;
//! theory.add_producer(latch_set, &[heater])?;
//! theory.add_producer(heater_on, &[latch])?;
//! let graph = theory.build()?;
//!
//! let mut solver = Solver::new();
//! assert!(solver.needed(&graph));
//! let (never, atom_never) = (NodeMask::none(&graph), AtomMask::none(&graph));
//! let missing = solver.complete(&graph, &never, &atom_never)?;
//! assert!(missing.iter().eq([heater, latch]));
//!
//! // With the heater switched on as a fact, none is missing.
//! theory.add_fact(&[heater])?;
//! let graph = theory.build()?;
//! assert!(solver.complete(&graph, &never, &atom_never)?.is_empty());
//!
//! // With the heater cut as well, nothing holds up the latch.
//! let broken = AtomMask::of(&graph, [heater])?;
//! let missing = solver.complete(&graph, &never, &broken)?;
//! assert!(missing.iter().eq([latch]) && !missing.contains(heater));
//! # Ok::<(), founded::Error>(())
//! ```
//!
//! # Two editions
//!
//! A graph is laid down in one of two editions. Both hold the same records and give the same answers; they differ in the width of a word and in how much has room.
//!
//! | | edition 1 | edition 2 |
//! |---|---|---|
//! | words | 16 bits | 32 bits |
//! | type, made by | [`Graph`], [`Theory::build`] | [`WideGraph`], [`Theory::build_wide`] |
//! | most atoms, nodes, producers | 1,024 each | 262,144 each |
//! | most links, leaf entries, head entries | 4,096 each | 1,048,576 each |
//! | work area | 32,768 words | as the graph's size asks: [`wide::work_words`] |
//! | calls over plain slices | [`check`], [`needed`], [`prepare`], [`complete`], [`unfounded`] | the first four in [`wide`] |
//! | compared by content | `==`, `<`, sorted maps: [`compare`] | no |
//!
//! Ids, masks, lists and refusals are the same in both. A theory that is too large for edition 1 is told so by `build`:
//!
//! ```
//! use founded::{AtomMask, Error, Node, NodeMask, Solver, Theory};
//!
//! // 2,000 heaters in a ring, each on because the one before it is.
//! let mut theory = Theory::new();
//! let heaters = (0..2_000).map(|_| theory.add_atom()).collect::<Result<Vec<_>, _>>()?;
//! for (n, &heater) in heaters.iter().enumerate() {
//!     let on = theory.add_node(Node::Atom(heater))?;
//!     theory.add_producer(on, &[heaters[(n + 1) % 2_000]])?;
//! }
//! assert_eq!(theory.build(), Err(Error::TooMany { what: "atoms", most: 1_024 }));
//!
//! let graph = theory.build_wide()?;
//! let mut solver = Solver::new();
//! let (never, atom_never) = (NodeMask::none(&graph), AtomMask::none(&graph));
//! assert_eq!(solver.complete(&graph, &never, &atom_never)?.len(), 2_000);
//! # Ok::<(), Error>(())
//! ```
//!
//! # A search branch
//!
//! A search tries one pair of masks after the other on one graph, and most of a lone pass is check and preparation, the same each time. [`Solver::branch`] takes up to 64 pairs and
//! prepares once, in edition 1. A [`Branch`] is built once and changed in place; the lists are read where the call leaves them. What would be missing if this or that part broke:
//!
//! ```
//! use founded::{Branch, Node, Solver, Theory};
//!
//! // The heater is on while the latch is set, the latch is set while the heater is on, and the sun sets it too.
//! let mut theory = Theory::new();
//! let [heater, latch, sun] = [theory.add_atom()?, theory.add_atom()?, theory.add_atom()?];
//! let heater_on = theory.add_node(Node::Atom(heater))?;
//! let latch_set = theory.add_node(Node::Atom(latch))?;
//! let sunlit = theory.add_node(Node::Atom(sun))?;
//! theory.add_producer(latch_set, &[heater])?;
//! theory.add_producer(heater_on, &[latch])?;
//! theory.add_producer(sunlit, &[latch])?;
//! let graph = theory.build()?;
//!
//! let mut branch = Branch::new(&graph, 3)?;
//! branch.cut(1, sun)?;
//! branch.cut(2, latch_set)?;
//! let mut solver = Solver::new();
//! let lists = solver.branch(&graph, &branch)?;
//! let missing = |pair: usize| lists.get(pair).into_iter().flat_map(|list| list.iter());
//! assert_eq!(missing(0).count(), 0);
//! assert!(missing(1).eq([heater, latch]));
//! assert!(missing(2).eq([heater]));
//!
//! // The search goes on: the sun is back, and the heater is cut.
//! branch.uncut(1, sun)?;
//! branch.cut(1, heater)?;
//! assert!(solver.branch(&graph, &branch)?.iter().map(|list| list.len()).eq([0, 0, 1]));
//! # Ok::<(), founded::Error>(())
//! ```
//!
//! # Filed by content
//!
//! Graphs of edition 1 are ordered by content, as [`compare`] says: two graphs that say the same are equal, however their links are numbered. So a sorted map files them.
//! [`GraphOf::same_words`] says whether the words are the same too.
//!
//! ```
//! use std::collections::BTreeMap;
//!
//! use founded::Graph;
//!
//! // A fact with two heads, its links in two orders.
//! let up = Graph::from_words(vec![1, 2, 0, 1, 2, 0, 1, 0, 2, 1, 0])?;
//! let down = Graph::from_words(vec![1, 2, 0, 1, 2, 0, 2, 1, 0, 0, 1])?;
//! assert!(up == down && !up.same_words(&down));
//!
//! let mut archive = BTreeMap::new();
//! archive.insert(up, "first");
//! assert_eq!(archive.insert(down, "again"), Some("first"));
//! # Ok::<(), founded::Refusal>(())
//! ```
//!
//! # A work allowance
//!
//! Where there is a limit on the work of each cycle, [`Solver::complete_within`] runs a pass against a [`Meter`], in edition 1. What is counted is one for each founded atom and each true node, and one
//! for each entry followed from them. The pass stops as soon as the count would exceed what is left:
//!
//! ```
//! use founded::{AtomMask, Meter, Node, NodeMask, Refusal, Solver, Theory};
//!
//! // Heater and latch hold each other up, and the heater is switched on as a fact.
//! let mut theory = Theory::new();
//! let (heater, latch) = (theory.add_atom()?, theory.add_atom()?);
//! let heater_on = theory.add_node(Node::Atom(heater))?;
//! let latch_set = theory.add_node(Node::Atom(latch))?;
//! theory.add_producer(latch_set, &[heater])?;
//! theory.add_producer(heater_on, &[latch])?;
//! theory.add_fact(&[heater])?;
//! let graph = theory.build()?;
//!
//! let (never, atom_never) = (NodeMask::none(&graph), AtomMask::none(&graph));
//! let (mut solver, mut meter) = (Solver::new(), Meter::new(20));
//! // The fact's head; two atoms and two nodes; a node that names each atom, a head of each node.
//! assert!(solver.complete_within(&graph, &never, &atom_never, &mut meter)?.is_empty());
//! assert_eq!(meter.remainder(), 20 - 9);
//! solver.complete_within(&graph, &never, &atom_never, &mut meter)?;
//! let refused = solver.complete_within(&graph, &never, &atom_never, &mut meter);
//! assert_eq!((refused.err(), meter.remainder()), (Some(Refusal::Allowance), 0));
//! # Ok::<(), founded::Error>(())
//! ```
//!
//! # Telemetry not yet in
//!
//! Before a pass of the ground station some readings are open. [`Solver::undecided`] says what is missing in any case, and what may be. The heater is on because the latch is set, the
//! latch is set because the heater is on, and a command switches the heater on as long as the bus has power. Whether it has is not known yet:
//!
//! ```
//! use founded::{AtomMask, Node, NodeMask, Solver, Theory};
//!
//! let mut theory = Theory::new();
//! let heater = theory.add_atom()?;
//! let latch = theory.add_atom()?;
//! let heater_on = theory.add_node(Node::Atom(heater))?;
//! let latch_set = theory.add_node(Node::Atom(latch))?;
//! let power = theory.add_node(Node::Threshold)?;
//! theory.add_producer(latch_set, &[heater])?;
//! theory.add_producer(heater_on, &[latch])?;
//! theory.add_producer(power, &[heater])?;
//! let graph = theory.build()?;
//!
//! let (never, atom_never) = (NodeMask::none(&graph), AtomMask::none(&graph));
//! let (open, atom_open) = (NodeMask::of(&graph, [power])?, AtomMask::none(&graph));
//! let mut solver = Solver::new();
//! let lists = solver.undecided(&graph, &never, &atom_never, &open, &atom_open)?;
//! assert!(lists.always.is_empty() && lists.sometimes.iter().eq([heater, latch]));
//!
//! // Open is the heater itself: ruled out, it is not missing, but the latch is.
//! let (open, atom_open) = (NodeMask::none(&graph), AtomMask::of(&graph, [heater])?);
//! let lists = solver.undecided(&graph, &never, &atom_never, &open, &atom_open)?;
//! assert!(lists.always.is_empty() && lists.sometimes.iter().eq([latch]));
//! # Ok::<(), founded::Error>(())
//! ```
//!
//! # What there is
//!
//! - [`Theory`] builds a graph, [`Graph`] or [`WideGraph`] holds the words of one that the proved check has accepted. [`GraphOf::from_words`] takes words from outside. [`Graph::widen`] goes from edition 1 to edition 2.
//! - [`Solver`] owns the work area and the output and runs the loop test, the preparation and the pass, and on a [`Graph`] the pass with every atom marked ([`Solver::unfounded`]) and the
//!   search branch ([`Solver::branch`]).
//! - [`check`], [`needed`], [`prepare`] and [`complete`], here and in [`wide`], are calls over plain slices, for callers that keep their own memory; so are [`unfounded`] and [`branch`], here alone.
//! - [`compare`] is one order for graphs of edition 1, by content, whatever the links' numbering. [`Graph`] is `Ord` by it.
//! - [`complete_within`] is the pass within an allowance, with a [`Meter`].
//! - [`raw`] has all calls as the archive does.
//! - A call is turned away by a [`Refusal`], with the number and place of docs/FORMAT.md's table.
//! - A call's list is shown as [`Atoms`] until the next call; [`Atoms::to_list`] keeps it.
//! - A [`Theory`] is had from a graph, and a graph from a theory, by `From` and `TryFrom`; a graph's bytes by [`GraphOf::to_bytes`] and [`GraphOf::from_bytes`].
//! - [`rules`] reads rule files, [`explain`] tells why their states are missing, in circles, and which states nothing produces; the program `founded` prints that.

mod branch;
mod bytes;
mod calls;
mod chains;
#[doc(hidden)]
pub mod command;
mod convert;
mod error;
pub mod explain;
mod graph;
mod ids;
mod list;
mod mask;
mod meter;
pub mod raw;
mod refusal;
pub mod rules;
mod solver;
mod theory;
mod word;

pub use branch::{Branch, Lists};
pub use calls::narrow::{check, compare, complete, needed, prepare, unfounded};
pub use calls::{
    BRANCH_WORK_WORDS, MOST_PAIRS, WORK_WORDS, branch, complete_within, mask_words, undecided, wide,
};
pub use error::Error;
pub use graph::{Graph, GraphOf, WideGraph};
pub use list::{AtomList, AtomsIter};
pub use mask::{AtomMask, Atoms, Cut, Mask, NodeMask};
pub use meter::Meter;
pub use refusal::{Chain, Refusal};
pub use solver::{Solver, Undecided};
pub use theory::{AtomId, Node, NodeId, Producer, ProducerId, Theory};
pub use word::Word;
