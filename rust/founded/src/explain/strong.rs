//! Strongly connected parts (Tarjan 1972), with a way of its own in place of recursion.

/// What is known of a vertex that the search has met.
#[derive(Clone, Copy)]
struct Met {
    order: usize,
    /// The lowest order that is known to be reached from it within its part.
    low: usize,
    /// The part, once all of it is known.
    part: Option<usize>,
}

struct Search<F> {
    next: F,
    met: Vec<Option<Met>>,
    orders: usize,
    parts: usize,
    /// Vertices whose parts are not known yet, in the order in which they were met.
    open: Vec<usize>,
    /// The way to where the search is, each vertex with those behind it that are still to be looked at.
    way: Vec<(usize, Vec<usize>)>,
}

impl<F: Fn(usize) -> Vec<usize>> Search<F> {
    fn meet(&mut self, vertex: usize) {
        let (order, low) = (self.orders, self.orders);
        self.met[vertex] = Some(Met {
            order,
            low,
            part: None,
        });
        self.orders += 1;
        self.open.push(vertex);
        self.way.push((vertex, (self.next)(vertex)));
    }

    /// An edge on the way: its end lies in the same part or in one that is known.
    fn see(&mut self, vertex: usize, other: Met) {
        if other.part.is_none() {
            self.lower(vertex, other.order);
        }
    }

    fn lower(&mut self, vertex: usize, order: usize) {
        if let Some(met) = &mut self.met[vertex] {
            met.low = met.low.min(order);
        }
    }

    /// All edges of a vertex have been looked at: it closes a part, or lowers the vertex before it on the way.
    fn leave(&mut self, vertex: usize, met: Met) {
        if let Some(&(before, _)) = self.way.last() {
            self.lower(before, met.low);
        }
        if met.low < met.order {
            return;
        }
        while let Some(member) = self.open.pop() {
            if let Some(met) = &mut self.met[member] {
                met.part = Some(self.parts);
            }
            if member == vertex {
                break;
            }
        }
        self.parts += 1;
    }

    fn from(&mut self, root: usize) {
        self.meet(root);
        while let Some((vertex, rest)) = self.way.last_mut() {
            let vertex = *vertex;
            match rest.pop() {
                Some(other) => match self.met[other] {
                    Some(met) => self.see(vertex, met),
                    None => self.meet(other),
                },
                None => {
                    self.way.pop();
                    if let Some(met) = self.met[vertex] {
                        self.leave(vertex, met);
                    }
                }
            }
        }
    }
}

/// The strongly connected parts of the vertices that are reached from these, out of `count`, where `next` has the ends of each one's edges: the part of each vertex, and how many
/// there are. An edge from one part to another leads to the lower number.
pub fn parts(
    count: usize,
    roots: impl Iterator<Item = usize>,
    next: impl Fn(usize) -> Vec<usize>,
) -> (Vec<Option<usize>>, usize) {
    let mut search = Search {
        next,
        met: vec![None; count],
        orders: 0,
        parts: 0,
        open: Vec::new(),
        way: Vec::new(),
    };
    for root in roots {
        if search.met[root].is_none() {
            search.from(root);
        }
    }
    let part = search.met.iter().map(|met| met.and_then(|met| met.part));
    (part.collect(), search.parts)
}
