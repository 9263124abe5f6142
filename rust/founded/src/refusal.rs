use std::error::Error;
use std::fmt;

use crate::{NodeId, ProducerId};

/// A call turned away: one case for each number of the table "Refusals" in docs/FORMAT.md. Of several that apply a call gives the
/// first in the table's order, in which 14 stands between 6 and 7, 13 between 9 and 10, and 21 between 10 and 11. In refusals 1, 2, 9 and 11 each edition has its own numbers.
#[derive(Clone, Copy, Debug, PartialEq, Eq, Hash)]
#[non_exhaustive]
pub enum Refusal {
    /// 1: fewer than 5 words, or edition not 1 in 16-bit words, not 2 in 32-bit words.
    Edition,
    /// 2: A, N or P above 1,024, or K above 4,096; in edition 2 above 262,144, or 1,048,576.
    Counts,
    /// 3: length isn't 5 + 3N + 2P + 2K.
    Size,
    /// 4: a node record that is none. The first such node.
    Node(NodeId),
    /// 5: body + 1 above N, or first link above K. The first such producer.
    Producer(ProducerId),
    /// 6: next is above K. The first such link, numbered from 1.
    Link(u32),
    /// 7: a leaf not below its own node's number. The first such node.
    Leaf(NodeId),
    /// 8: a head not below A. The first such producer.
    Head(ProducerId),
    /// 9: more than 4,096 leaf entries or more than 4,096 head entries; in edition 2 more than 1,048,576.
    Entries,
    /// 10: a mask is longer than the graph asks for (it may be shorter), or the output has another length. Of a search branch the masks and the output laid end to end have not exactly their full lengths
    /// times the number of pairs.
    Lengths,
    /// 11: the work area is not exactly 32,768 words; of a search branch not exactly 49,152; in edition 2 not exactly [`wide::work_words`](crate::wide::work_words).
    Work,
    /// 12: the body cone holds an absorbed node. The first such node.
    Absorbed(NodeId),
    /// 13, of a search branch alone: no pair of masks, or more than 64. It stands after 9 and before 10.
    Pairs,
    /// 15, of a pass within an allowance alone: its count exceeds the allowance. It stands after 12.
    Allowance,
    /// 14: a chain comes back to one of its own links. The first node whose leaf chain does, or where none does, the first producer whose head chain does. A call's code
    /// does not say which of the two; a walk along the node's chain does.
    ComesBack(Chain),
    /// 21: a node or an atom is both ruled out and undecided. Given right after 10.
    CutAndOpen,
}

/// Whose chain it is.
#[derive(Clone, Copy, Debug, PartialEq, Eq, Hash)]
pub enum Chain {
    Node(NodeId),
    Producer(ProducerId),
}

impl Refusal {
    /// The refusal of this number and place; the place counts only where the number has one. None for a number that no refusal has, and for 14, whose place may be a
    /// node's or a producer's.
    #[must_use]
    pub fn of(number: u16, place: u32) -> Option<Self> {
        Some(match number {
            1 => Self::Edition,
            2 => Self::Counts,
            3 => Self::Size,
            4 => Self::Node(NodeId(place)),
            5 => Self::Producer(ProducerId(place)),
            6 => Self::Link(place),
            7 => Self::Leaf(NodeId(place)),
            8 => Self::Head(ProducerId(place)),
            9 => Self::Entries,
            10 => Self::Lengths,
            11 => Self::Work,
            12 => Self::Absorbed(NodeId(place)),
            13 => Self::Pairs,
            15 => Self::Allowance,
            21 => Self::CutAndOpen,
            _ => return None,
        })
    }

    /// The number in the table.
    #[must_use]
    pub fn number(self) -> u16 {
        match self {
            Self::Edition => 1,
            Self::Counts => 2,
            Self::Size => 3,
            Self::Node(_) => 4,
            Self::Producer(_) => 5,
            Self::Link(_) => 6,
            Self::Leaf(_) => 7,
            Self::Head(_) => 8,
            Self::Entries => 9,
            Self::Lengths => 10,
            Self::Work => 11,
            Self::Absorbed(_) => 12,
            Self::Pairs => 13,
            Self::Allowance => 15,
            Self::ComesBack(_) => 14,
            Self::CutAndOpen => 21,
        }
    }

    /// The place returned beside the number; 0 where the number has none.
    #[must_use]
    pub fn place(self) -> u32 {
        match self {
            Self::Node(NodeId(n))
            | Self::Leaf(NodeId(n))
            | Self::Absorbed(NodeId(n))
            | Self::ComesBack(Chain::Node(NodeId(n))) => n,
            Self::Producer(ProducerId(p))
            | Self::Head(ProducerId(p))
            | Self::ComesBack(Chain::Producer(ProducerId(p))) => p,
            Self::Link(l) => l,
            Self::Edition
            | Self::Counts
            | Self::Size
            | Self::Entries
            | Self::Lengths
            | Self::Work
            | Self::Pairs
            | Self::Allowance
            | Self::CutAndOpen => 0,
        }
    }

    /// What the number says, with edition 1's numbers and then edition 2's.
    fn words(self) -> &'static str {
        match self {
            Self::Edition => "fewer than 5 words, or edition not 1 (in 32-bit words: not 2)",
            Self::Counts => {
                "A, N or P above 1,024, or K above 4,096 (edition 2: above 262,144, or 1,048,576)"
            }
            Self::Size => "length isn't 5 + 3N + 2P + 2K",
            Self::Node(_) => {
                "kind above 7; operand of an Atom not below A; operand of another kind not 0; first link above K; first link not 0 outside And and Or"
            }
            Self::Producer(_) => "body + 1 above N, or first link above K",
            Self::Link(_) => "next is above K",
            Self::Leaf(_) => "a leaf not below its own node's number",
            Self::Head(_) => "a head not below A",
            Self::Entries => {
                "more than 4,096 leaf entries or more than 4,096 head entries (edition 2: more than 1,048,576)"
            }
            Self::Lengths => {
                "the node mask has more than ⌈N/64⌉ words, or the atom mask more than ⌈A/64⌉, or the output not ⌈A/64⌉ (a search branch: each not exactly so many for each pair)"
            }
            Self::Work => {
                "not exactly 32,768 16-bit words (a search branch: 49,152; edition 2: 16·(A + N + P + 1) + 4·(leaf entries + head entries) 32-bit words)"
            }
            Self::Absorbed(_) => "the body cone holds a node of kind 7",
            Self::Pairs => "no pair of masks, or more than 64",
            Self::Allowance => "the count exceeds the allowance",
            Self::ComesBack(Chain::Node(_)) => {
                "the leaf chain of this node comes back to one of its own links"
            }
            Self::ComesBack(Chain::Producer(_)) => {
                "the head chain of this producer comes back to one of its own links"
            }
            Self::CutAndOpen => "a node or an atom is both ruled out and undecided",
        }
    }
}

impl fmt::Display for Refusal {
    fn fmt(&self, f: &mut fmt::Formatter<'_>) -> fmt::Result {
        write!(
            f,
            "refused {} {}: {}",
            self.number(),
            self.place(),
            self.words()
        )
    }
}

impl Error for Refusal {}
