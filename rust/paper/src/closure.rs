//! Walks along one or more edges, by transitive closure.

/// Which vertices reach which, as one row of bits a vertex.
pub(crate) struct Reach {
    width: usize,
    rows: Vec<u64>,
}

impl Reach {
    /// The closure of the edges, by Warshall's rule.
    pub(crate) fn new(vertices: usize, edges: &[(usize, usize)]) -> Self {
        let width = vertices.div_ceil(64);
        let mut reach = Self {
            width,
            rows: vec![0; vertices * width],
        };
        for &(from, to) in edges {
            reach.rows[from * width + to / 64] |= 1 << (to % 64);
        }
        for through in 0..vertices {
            for from in 0..vertices {
                if reach.leads(from, through) {
                    reach.add_row(from, through);
                }
            }
        }
        reach
    }

    fn add_row(&mut self, from: usize, through: usize) {
        for word in 0..self.width {
            self.rows[from * self.width + word] |= self.rows[through * self.width + word];
        }
    }

    /// Whether a walk along one or more edges leads from one to the other.
    pub(crate) fn leads(&self, from: usize, to: usize) -> bool {
        self.rows[from * self.width + to / 64] >> (to % 64) & 1 == 1
    }

    /// Whether the vertex is on a closed chain.
    pub(crate) fn closed(&self, vertex: usize) -> bool {
        self.leads(vertex, vertex)
    }
}
