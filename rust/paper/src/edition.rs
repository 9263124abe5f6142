//! What an edition has of its own: its number, its limits and the length of its
//! work area.

use crate::graph::Graph;

#[derive(Clone, Copy, Debug)]
pub struct Edition {
    pub number: u32,
    /// The most states, conditions or rules.
    pub counts: usize,
    pub links: usize,
    /// The most leaf entries, and the most head entries.
    pub entries: usize,
    work: fn(&Graph) -> usize,
}

/// The length of edition 1's work area, in 16-bit words.
pub const WORK_WORDS: usize = 32_768;

/// Document 01's.
pub const EDITION_1: Edition = Edition {
    number: 1,
    counts: 1_024,
    links: 4_096,
    entries: 4_096,
    work: |_| WORK_WORDS,
};

/// Wide graphs: document 02, request 9.
pub const EDITION_2: Edition = Edition {
    number: 2,
    counts: 262_144,
    links: 1_048_576,
    entries: 1_048_576,
    work: |graph| {
        let counts = graph.atoms + graph.nodes.len() + graph.rules.len();
        16 * (counts + 1) + 4 * (graph.leaf_entries() + graph.head_entries())
    },
};

impl Edition {
    /// The length of the work area for an accepted graph, in words of the edition.
    pub fn work_words(&self, graph: &Graph) -> usize {
        (self.work)(graph)
    }
}

/// A word of a graph. The calls on words of one width take one edition.
pub trait Word: Copy + Into<u32> {
    const EDITION: Edition;

    fn number(self) -> usize {
        self.into() as usize
    }
}

impl Word for u16 {
    const EDITION: Edition = EDITION_1;
}

impl Word for u32 {
    const EDITION: Edition = EDITION_2;
}
