use crate::{
    AtomMask, Atoms, Branch, Graph, GraphOf, Lists, Meter, NodeMask, Refusal, Word, calls,
};

/// The work area and the output that the calls are lent, kept from call to call; they grow to what the largest graph so far asks for. Nothing else is kept: each answer
/// depends on the arguments alone. A solver is for graphs of one edition: `Solver<u16>`, or `Solver<u32>` for wide graphs; after `Solver::new()` the compiler
/// sees from the graphs which it is.
pub struct Solver<W = u16> {
    work: Vec<W>,
    output: Vec<u64>,
}

impl<W: Word> Default for Solver<W> {
    fn default() -> Self {
        Self::new()
    }
}

/// The first words of a buffer, as many as a call is lent. Calls leave the work area all zero, and what is in either buffer before a call has no effect.
fn lend<T: Copy + Default>(buffer: &mut Vec<T>, words: usize) -> &mut [T] {
    if buffer.len() < words {
        *buffer = vec![T::default(); words];
    }
    &mut buffer[..words]
}

/// Whether both masks are of graphs of this one's counts. The calls take short masks, and so cannot tell one of a smaller graph.
fn fit<W: Word>(
    graph: &GraphOf<W>,
    never: &NodeMask,
    atom_never: &AtomMask,
) -> Result<(), Refusal> {
    if never.count() == graph.nodes() && atom_never.count() == graph.atoms() {
        Ok(())
    } else {
        Err(Refusal::Lengths)
    }
}

impl<W: Word> Solver<W> {
    #[must_use]
    pub const fn new() -> Self {
        Self {
            work: Vec::new(),
            output: Vec::new(),
        }
    }

    /// Output and work area for this graph.
    fn lent(&mut self, graph: &GraphOf<W>) -> (&mut [u64], &mut [W]) {
        (
            lend(&mut self.output, calls::mask_words(graph.atoms())),
            lend(&mut self.work, graph.work_words()),
        )
    }

    /// The loop test: whether there is a closed walk over all atoms and all nodes.
    #[must_use]
    pub fn needed(&mut self, graph: &GraphOf<W>) -> bool {
        let (_, work) = self.lent(graph);
        calls::needed(graph.words(), work)
            .expect("the graph is accepted and the work area has its length")
    }

    /// Preparation: the cyclic atoms.
    ///
    /// # Errors
    /// [`Refusal::Absorbed`].
    pub fn prepare(&mut self, graph: &GraphOf<W>) -> Result<Atoms<'_>, Refusal> {
        let (output, work) = self.lent(graph);
        calls::prepare(graph.words(), output, work)?;
        Ok(Atoms::of(output))
    }

    /// The pass: the missing atoms, under the cuts of the two masks.
    ///
    /// # Errors
    /// [`Refusal::Absorbed`], and [`Refusal::Lengths`] if a mask is that of a graph of another count.
    pub fn complete(
        &mut self,
        graph: &GraphOf<W>,
        never: &NodeMask,
        atom_never: &AtomMask,
    ) -> Result<Atoms<'_>, Refusal> {
        fit(graph, never, atom_never)?;
        let (output, work) = self.lent(graph);
        calls::complete(
            graph.words(),
            never.words(),
            atom_never.words(),
            output,
            work,
        )?;
        Ok(Atoms::of(output))
    }
}

impl Solver<u16> {
    /// The pass with every atom marked: the uncut atoms that are left unfounded, under the cuts of the two masks. Those that nothing produces are on this list too.
    ///
    /// # Errors
    /// As [`Self::complete`].
    pub fn unfounded(
        &mut self,
        graph: &GraphOf<u16>,
        never: &NodeMask,
        atom_never: &AtomMask,
    ) -> Result<Atoms<'_>, Refusal> {
        fit(graph, never, atom_never)?;
        let (output, work) = self.lent(graph);
        calls::unfounded(
            graph.words(),
            never.words(),
            atom_never.words(),
            output,
            work,
        )?;
        Ok(Atoms::of(output))
    }

    /// The pass within a work allowance: the missing atoms, and the meter's remainder falls by the count of the pass.
    ///
    /// # Errors
    /// [`Refusal::Allowance`] if the count exceeds the allowance, which then has nothing left; and those of [`complete`](Self::complete), which leave the meter as it was.
    pub fn complete_within(
        &mut self,
        graph: &Graph,
        never: &NodeMask,
        atom_never: &AtomMask,
        meter: &mut Meter,
    ) -> Result<Atoms<'_>, Refusal> {
        let (output, work) = self.lent(graph);
        calls::complete_within(
            graph.words(),
            never.words(),
            atom_never.words(),
            output,
            work,
            meter,
        )?;
        Ok(Atoms::of(output))
    }
}

/// The atoms that are missing whatever the open readings turn out to be, and those that may be.
#[derive(Clone, Copy, Debug, PartialEq, Eq)]
pub struct Undecided<'a> {
    /// Missing under every choice of the undecided bits. An atom that is undecided itself is never among them.
    pub always: Atoms<'a>,
    /// Missing under at least one.
    pub sometimes: Atoms<'a>,
}

impl Solver<u16> {
    /// Telemetry not yet in: what is missing in any case, and what may be. A node of `open`, or an atom of `atom_open`, is undecided: each choice rules it out or does not. With
    /// nothing undecided both lists are those of [`complete`](Self::complete).
    ///
    /// # Errors
    /// [`Refusal::Absorbed`]; [`Refusal::CutAndOpen`] for a node or an atom both ruled out and undecided; and [`Refusal::Lengths`] if a mask is that of a graph of another count.
    pub fn undecided(
        &mut self,
        graph: &Graph,
        never: &NodeMask,
        atom_never: &AtomMask,
        open: &NodeMask,
        atom_open: &AtomMask,
    ) -> Result<Undecided<'_>, Refusal> {
        let nodes = [never.count(), open.count()] == [graph.nodes(); 2];
        let atoms = [atom_never.count(), atom_open.count()] == [graph.atoms(); 2];
        if !nodes || !atoms {
            return Err(Refusal::Lengths);
        }
        let words = calls::mask_words(graph.atoms());
        let work = lend(&mut self.work, graph.work_words());
        let (always, sometimes) = lend(&mut self.output, 2 * words).split_at_mut(words);
        calls::undecided(
            graph.words(),
            never.words(),
            atom_never.words(),
            open.words(),
            atom_open.words(),
            always,
            sometimes,
            work,
        )?;
        Ok(Undecided {
            always: Atoms::of(always),
            sometimes: Atoms::of(sometimes),
        })
    }

    /// A search branch: the missing atoms for each pair of masks. The graph is checked and prepared once; each pair after the first takes a small part of a pass of its own. What a
    /// call pays whatever the pairs are, the next one pays anew.
    ///
    /// # Errors
    /// [`Refusal::Absorbed`], and [`Refusal::Lengths`] if the branch is that of a graph of another count.
    pub fn branch(&mut self, graph: &Graph, branch: &Branch) -> Result<Lists<'_>, Refusal> {
        if branch.counts() != (graph.nodes(), graph.atoms()) {
            return Err(Refusal::Lengths);
        }
        let pairs = branch.pairs();
        let output = lend(&mut self.output, pairs * calls::mask_words(graph.atoms()));
        let work = lend(&mut self.work, calls::BRANCH_WORK_WORDS);
        let (never, atom_never) = (branch.never(), branch.atom_never());
        calls::branch(graph.words(), pairs, never, atom_never, output, work)?;
        Ok(Lists::of(output, pairs))
    }
}
