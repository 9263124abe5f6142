use std::fmt;

use crate::{AtomId, NodeId, Refusal};

/// What can go wrong above the calls: a theory or a mask that cannot be, or a refusal.
#[derive(Clone, Copy, Debug, PartialEq, Eq)]
#[non_exhaustive]
pub enum Error {
    /// More than a theory may have, or than the edition has room for that it is to be built in.
    TooMany {
        what: &'static str,
        most: usize,
    },
    /// No such atom in this theory or graph.
    NoAtom(AtomId),
    /// No such node in this theory or graph.
    NoNode(NodeId),
    /// No such pair in this branch.
    NoPair(usize),
    /// A leaf is not below the And or Or that lists it: leaves are added first.
    LeafNotBelow {
        leaf: NodeId,
        node: NodeId,
    },
    Refused(Refusal),
}

impl From<Refusal> for Error {
    fn from(refusal: Refusal) -> Self {
        Self::Refused(refusal)
    }
}

impl fmt::Display for Error {
    fn fmt(&self, f: &mut fmt::Formatter<'_>) -> fmt::Result {
        match self {
            Self::TooMany { what, most } => write!(f, "more than {most} {what}"),
            Self::NoAtom(AtomId(a)) => write!(f, "there is no atom {a}"),
            Self::NoNode(NodeId(n)) => write!(f, "there is no node {n}"),
            Self::NoPair(pair) => write!(f, "there is no pair {pair}"),
            Self::LeafNotBelow {
                leaf: NodeId(l),
                node: NodeId(n),
            } => write!(f, "leaf {l} is not below its own node, {n}"),
            Self::Refused(refusal) => refusal.fmt(f),
        }
    }
}

impl std::error::Error for Error {}
