//! The call on undecided bits (document 02, request 12), with all lent memory
//! watched: on small graphs held to every choice, on large ones to lone passes.

use founded::raw;
use paper::open::Open;
use paper::{Refusal, WORK_WORDS, mask_len};

use crate::calls::Word;
use crate::ours::{GUARD, Lent};
use crate::random::{self, SCALES};
use crate::rng::Rng;
use crate::runs::numbered;
use crate::tiny::{self, Sizes};

/// `founded_undecided` as the archive has it.
pub type Undecided = unsafe extern "C" fn(
    *const u16,
    usize,
    *const u64,
    usize,
    *const u64,
    usize,
    *const u64,
    usize,
    *const u64,
    usize,
    *mut u64,
    usize,
    *mut u64,
    usize,
    *mut u16,
    usize,
) -> u32;

/// One call's arguments: the graph, both masks, the undecided bits beside each,
/// and the lengths of both outputs and the work area.
#[derive(Clone, Debug)]
pub struct Case {
    pub words: Vec<u16>,
    pub never: Vec<u64>,
    pub atom_never: Vec<u64>,
    pub open: Vec<u64>,
    pub atom_open: Vec<u64>,
    pub always: usize,
    pub sometimes: usize,
    pub work: usize,
}

impl Case {
    /// With the lengths that fit.
    pub fn new(words: &[u16], [never, atom_never, open, atom_open]: [Vec<u64>; 4]) -> Self {
        let output = mask_len(words[1].into());
        Self {
            words: words.to_vec(),
            never,
            atom_never,
            open,
            atom_open,
            always: output,
            sometimes: output,
            work: WORK_WORDS,
        }
    }

    fn expected(&self) -> Result<[Vec<u64>; 2], Refusal> {
        let lent = Open {
            never: &self.never,
            atom_never: &self.atom_never,
            open: &self.open,
            atom_open: &self.atom_open,
        };
        paper::open::undecided(&self.words, lent, self.always, self.sometimes, self.work)
    }
}

/// What was compared.
#[derive(Clone, Copy, Debug, Default, PartialEq, Eq)]
pub struct Tally {
    pub calls: u64,
    /// Calls turned away, by number.
    pub refused: [u64; 23],
    /// Calls after which the two lists differ.
    pub differ: u64,
    /// Lone passes that the lists were held to.
    pub passes: u64,
}

impl Tally {
    pub fn add(&mut self, other: &Self) {
        self.calls += other.calls;
        self.differ += other.differ;
        self.passes += other.passes;
        for (number, count) in other.refused.iter().enumerate() {
            self.refused[number] += count;
        }
    }
}

/// The memory lent to the call.
pub struct Watched {
    call: Undecided,
    graph: Lent<u16>,
    masks: [Lent<u64>; 4],
    outputs: [Lent<u64>; 2],
    work: Lent<u16>,
    rng: Rng,
    pub tally: Tally,
}

impl Watched {
    pub fn new(call: Undecided) -> Self {
        let mut rng = Rng::new(12);
        let words = [(); GUARD].map(|()| u16::cut(rng.word()));
        let masks = [(); GUARD].map(|()| rng.word());
        Self {
            call,
            graph: Lent::new(words),
            masks: [(); 4].map(|()| Lent::new(masks)),
            outputs: [(); 2].map(|()| Lent::new(masks)),
            work: Lent::new(words),
            rng,
            tally: Tally::default(),
        }
    }

    /// The call, and what it leaves, against what is expected of it.
    ///
    /// # Errors
    /// What differs.
    pub fn held_to(
        &mut self,
        case: &Case,
        expected: &Result<[Vec<u64>; 2], Refusal>,
    ) -> Result<(), String> {
        let code = self.called(case);
        self.tally.calls += 1;
        let (number, place) = (code >> 16, code & 0xffff);
        let right = match expected {
            Ok(_) => code == 0,
            Err(refusal) => {
                self.tally.refused[usize::from(refusal.number)] += 1;
                number == u32::from(refusal.number) && refusal.place == place
            }
        };
        if !right {
            return Err(format!("undecided: {number} at {place}, {expected:?}"));
        }
        if let Ok(lists) = expected {
            self.tally.differ += u64::from(lists[0] != lists[1]);
            for (output, list) in self.outputs.iter_mut().zip(lists) {
                output.written(list);
            }
        }
        if number == 0 || number == 12 {
            self.work.written(&vec![0; case.work]);
        }
        let held = [
            ("graph", self.graph.holds()),
            ("node mask", self.masks[0].holds()),
            ("atom mask", self.masks[1].holds()),
            ("undecided nodes", self.masks[2].holds()),
            ("undecided atoms", self.masks[3].holds()),
            ("first list", self.outputs[0].holds()),
            ("second list", self.outputs[1].holds()),
            ("work area", self.work.holds()),
        ];
        match held.iter().find(|(_, held)| !held) {
            None => Ok(()),
            Some((name, _)) => Err(format!("undecided: the {name} or what is beside it")),
        }
    }

    /// Wild words in outputs and work area, and the call.
    fn called(&mut self, case: &Case) -> u32 {
        self.graph.lend(case.words.iter().copied());
        let masks = [&case.never, &case.atom_never, &case.open, &case.atom_open];
        for (lent, mask) in self.masks.iter_mut().zip(masks) {
            lent.lend(mask.iter().copied());
        }
        let rng = &mut self.rng;
        for (lent, length) in self.outputs.iter_mut().zip([case.always, case.sometimes]) {
            lent.lend((0..length).map(|_| rng.word()));
        }
        let wild = rng.word();
        self.work
            .lend((0..case.work as u64).map(|i| u16::cut(wild.wrapping_mul(i | 1) >> 32)));
        let [never, atom_never, open, atom_open] = &mut self.masks;
        let [always, sometimes] = &mut self.outputs;
        // Safety: each slice lies within a buffer of its own.
        unsafe {
            (self.call)(
                self.graph.start(),
                case.words.len(),
                never.start(),
                case.never.len(),
                atom_never.start(),
                case.atom_never.len(),
                open.start(),
                case.open.len(),
                atom_open.start(),
                case.atom_open.len(),
                always.start(),
                case.always,
                sometimes.start(),
                case.sometimes,
                self.work.start(),
                case.work,
            )
        }
    }

    /// Every choice.
    ///
    /// # Errors
    /// The case, and what differs.
    pub fn compare(&mut self, case: &Case) -> Result<(), String> {
        self.held_to(case, &case.expected())
            .map_err(|what| format!("{what} on {case:x?}"))
    }
}

/// Every content of exactly these counts, with every four masks.
///
/// # Errors
/// The first difference.
pub fn contents(call: Undecided, sizes: Sizes) -> Result<Tally, String> {
    let mut watched = Watched::new(call);
    let pairs = tiny::all_masks(sizes.atoms.into(), sizes.nodes);
    let mut found = Ok(());
    tiny::each_content(sizes, |content| {
        let words = content.words();
        for (never, atom_never) in &pairs {
            for (open, atom_open) in &pairs {
                if found.is_ok() {
                    let masks = [never, atom_never, open, atom_open].map(Vec::clone);
                    found = watched.compare(&Case::new(&words, masks));
                }
            }
        }
    });
    found.map(|()| watched.tally)
}

/// Up to `most` numbers that the mask does not cut, as undecided bits; bits past
/// the last number are wild. Now and then one that is cut as well.
fn open_bits(rng: &mut Rng, count: usize, cut: &[u64], most: usize) -> Vec<u64> {
    let mut open = vec![0; mask_len(count)];
    let both = rng.chance(1, 16);
    for _ in 0..rng.between(0, most.min(count)) {
        let number = rng.below(count);
        if both || !paper::is_cut(cut, number) {
            open[number / 64] |= 1 << (number % 64);
        }
    }
    if let (Some(last), 1..) = (open.last_mut(), count % 64) {
        *last |= rng.word() & !0 << (count % 64);
    }
    open
}

/// A case on a random graph, with up to `most` undecided bits beside each mask.
fn drawn(rng: &mut Rng, scale: usize, most: usize) -> Case {
    let words: Vec<u16> = random::graph(rng, SCALES[scale]);
    let [atoms, nodes] = [1, 2].map(|i| usize::from(words[i]));
    let (never, atom_never) = (random::mask(rng, nodes), random::mask(rng, atoms));
    let open = open_bits(rng, nodes, &never, most);
    let atom_open = open_bits(rng, atoms, &atom_never, most);
    Case::new(&words, [never, atom_never, open, atom_open])
}

/// One length changed, of a mask, an output or the work area.
fn damaged(rng: &mut Rng, case: &mut Case) {
    let longer = rng.chance(1, 2);
    let turned = |length: usize| {
        if longer {
            length + 1
        } else {
            length.saturating_sub(1)
        }
    };
    match rng.below(7) {
        0 => case.never.resize(turned(case.never.len()), 0),
        1 => case.atom_never.resize(turned(case.atom_never.len()), 0),
        2 => case.open.resize(turned(case.open.len()), 0),
        3 => case.atom_open.resize(turned(case.atom_open.len()), 0),
        4 => case.always = turned(case.always),
        5 => case.sometimes = turned(case.sometimes),
        _ => case.work = turned(case.work),
    }
}

/// Small random graphs `from` up to `to`, every choice tried; one in eight with a
/// wrong length.
///
/// # Errors
/// The first difference.
pub fn graphs(call: Undecided, seed: u64, from: u64, to: u64) -> Result<Tally, String> {
    let mut watched = Watched::new(call);
    for i in from..to {
        let mut rng = numbered(seed ^ OPEN, i);
        let mut case = drawn(&mut rng, (i % 3) as usize, 3);
        if rng.chance(1, 8) {
            damaged(&mut rng, &mut case);
        }
        watched.compare(&case)?;
    }
    Ok(watched.tally)
}

/// What the generators of these graphs differ in from those of the random ones.
const OPEN: u64 = 0x1212_0000_0000_0000;

/// Large random graphs with undecided bits without number: the lists are held to
/// lone passes. The first is the atoms missing with nothing undecided ruled out
/// that are missing with all of it ruled out too. One of the second is missing
/// with all ruled out but itself, and any other under no choice that is tried.
///
/// # Errors
/// The first difference.
pub fn large(call: Undecided, seed: u64, from: u64, to: u64) -> Result<Tally, String> {
    let mut watched = Watched::new(call);
    for i in from..to {
        let mut rng = numbered(!seed ^ OPEN, i);
        let most = if rng.chance(1, 2) { 12 } else { 1_024 };
        let case = drawn(&mut rng, 3 + (i % 3) as usize, most);
        let lists = match expected_large(&mut rng, &case, &mut watched.tally) {
            Ok(lists) => Ok(lists),
            Err(None) => continue,
            Err(Some(what)) => return Err(format!("{what} on {case:x?}")),
        };
        watched
            .held_to(&case, &lists)
            .map_err(|what| format!("{what} on {case:x?}"))?;
    }
    Ok(watched.tally)
}

fn union(mask: &[u64], more: &[u64]) -> Vec<u64> {
    mask.iter()
        .zip(more)
        .map(|(one, other)| one | other)
        .collect()
}

/// Both lists by lone passes; nothing for a graph that is refused or a number in
/// both masks.
fn expected_large(
    rng: &mut Rng,
    case: &Case,
    tally: &mut Tally,
) -> Result<[Vec<u64>; 2], Option<String>> {
    let graph = founded::Graph::from_words(case.words.clone()).map_err(|_| None)?;
    let (atoms, nodes) = (graph.atoms(), graph.nodes());
    let overlap = |count: usize, cut: &[u64], open: &[u64]| {
        (0..count).any(|n| paper::is_cut(cut, n) && paper::is_cut(open, n))
    };
    if overlap(nodes, &case.never, &case.open) || overlap(atoms, &case.atom_never, &case.atom_open)
    {
        return Err(None);
    }
    let mut pass = |open: &[u64], atom_open: &[u64]| -> Result<Vec<u64>, Option<String>> {
        tally.passes += 1;
        let (never, atom_never) = (union(&case.never, open), union(&case.atom_never, atom_open));
        let mut output = vec![0; mask_len(atoms)];
        let mut work = vec![0; WORK_WORDS];
        founded::complete(graph.words(), &never, &atom_never, &mut output, &mut work)
            .map_err(|_| None)?;
        Ok(output)
    };
    let zeros = (vec![0; mask_len(nodes)], vec![0; mask_len(atoms)]);
    let none = pass(&zeros.0, &zeros.1)?;
    let all = pass(&case.open, &case.atom_open)?;
    let always: Vec<u64> = none
        .iter()
        .zip(&all)
        .map(|(one, other)| one & other)
        .collect();
    let mut sometimes = vec![0; mask_len(atoms)];
    for a in 0..atoms {
        let mut others = case.atom_open.clone();
        let (word, bit) = (a / 64, 1 << (a % 64));
        // Only an undecided atom makes another choice of it.
        if others[word] & bit == 0 {
            sometimes[word] |= all[word] & bit;
            continue;
        }
        others[word] &= !bit;
        sometimes[word] |= pass(&case.open, &others)?[word] & bit;
    }
    for _ in 0..4 {
        let mut some = |mask: &[u64]| {
            mask.iter()
                .map(|word| word & rng.word())
                .collect::<Vec<_>>()
        };
        let (open, atom_open) = (some(&case.open), some(&case.atom_open));
        let tried = pass(&open, &atom_open)?;
        for (word, list) in tried.iter().enumerate() {
            if always[word] & !list != 0 || list & !sometimes[word] != 0 {
                return Err(Some("lone passes: a choice outside both lists".into()));
            }
        }
    }
    Ok([always, sometimes])
}

/// The archive's call.
pub const ARCHIVE: Undecided = raw::founded_undecided;
