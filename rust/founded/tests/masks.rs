//! What a search does with its masks: it changes them all the time, and allocates nothing for it.

mod common;

use std::alloc::{GlobalAlloc, Layout, System};
use std::sync::atomic::{AtomicUsize, Ordering};

use common::Width;
use founded::{AtomId, AtomMask, Error, GraphOf, NodeId, NodeMask, Refusal, Solver, mask_words};

struct Counting;

static ALLOCATED: AtomicUsize = AtomicUsize::new(0);

// SAFETY: it hands all to the system's allocator.
unsafe impl GlobalAlloc for Counting {
    unsafe fn alloc(&self, layout: Layout) -> *mut u8 {
        ALLOCATED.fetch_add(1, Ordering::Relaxed);
        unsafe { System.alloc(layout) }
    }

    unsafe fn dealloc(&self, at: *mut u8, layout: Layout) {
        unsafe { System.dealloc(at, layout) }
    }
}

#[global_allocator]
static COUNTING: Counting = Counting;

/// A ring of atoms: each holds up the next, so all are missing.
fn ring<W: Width>(atoms: u32) -> GraphOf<W> {
    let mut words = vec![W::NUMBER, atoms, atoms, atoms, atoms];
    words.extend((0..atoms).flat_map(|a| [1, a, 0]));
    words.extend((0..atoms).flat_map(|a| [a + 1, a + 1]));
    words.extend((0..atoms).flat_map(|a| [(a + 1) % atoms, 0]));
    GraphOf::from_words(words.into_iter().map(|word| W::low(word.into())).collect()).unwrap()
}

fn search<W: Width>() {
    let graph = ring::<W>(130);
    let other = ring::<W>(129);
    let mut solver = Solver::new();
    let mut never = NodeMask::none(&graph);
    let mut atom_never = AtomMask::from_words(&graph, &[]).unwrap();
    let mut kept = AtomMask::of(&graph, [3, 64, 129].map(AtomId)).unwrap();
    let of_other = AtomMask::none(&other);
    let before = missing(&mut solver, &graph, &never, &atom_never);
    assert_eq!(before, 130);

    let allocated = ALLOCATED.load(Ordering::Relaxed);
    // As the logger leaves it: the trailing zero words are dropped.
    atom_never.take(&[1 << 5]).unwrap();
    assert!(atom_never.iter().eq([AtomId(5)]));
    assert_eq!(missing(&mut solver, &graph, &never, &atom_never), 129);
    atom_never.take(&[0, 0, !0]).unwrap();
    assert!(atom_never.iter().eq([AtomId(128), AtomId(129)]));
    assert_eq!(
        atom_never.take(&[0; 4]),
        Err(Error::Refused(Refusal::Lengths))
    );
    assert_eq!(atom_never.iter().count(), 2);
    atom_never.take(&[]).unwrap();
    assert_eq!(atom_never.iter().count(), 0);

    atom_never.cut(AtomId(129)).unwrap();
    atom_never.cut(AtomId(7)).unwrap();
    atom_never.uncut(AtomId(129)).unwrap();
    atom_never.uncut(AtomId(8)).unwrap();
    assert!(atom_never.iter().eq([AtomId(7)]));
    assert_eq!(
        atom_never.uncut(AtomId(130)),
        Err(Error::NoAtom(AtomId(130)))
    );
    never.cut(NodeId(64)).unwrap();
    assert!(never.iter().eq([NodeId(64)]));
    never.clear();
    assert_eq!(never.iter().count(), 0);

    kept.copy_from(&atom_never).unwrap();
    assert_eq!(kept, atom_never);
    assert_eq!(
        kept.copy_from(&of_other),
        Err(Error::Refused(Refusal::Lengths))
    );
    assert_eq!(kept, atom_never);

    // What is missing is cut, and the call is made again.
    let list = solver.complete(&graph, &never, &atom_never).unwrap();
    assert_eq!(list.len(), 129);
    kept.take(list.words()).unwrap();
    assert!(kept.iter().eq(list.iter()));
    kept.cut(AtomId(7)).unwrap();
    assert_eq!(missing(&mut solver, &graph, &never, &kept), 0);

    // A mask of a graph of another count is refused, also where it has as many words.
    assert_eq!(mask_words(129), mask_words(130));
    let answer = solver.complete(&graph, &never, &of_other);
    assert_eq!(answer.err(), Some(Refusal::Lengths));
    assert_eq!(ALLOCATED.load(Ordering::Relaxed), allocated);
}

fn missing<W: Width>(
    solver: &mut Solver<W>,
    graph: &GraphOf<W>,
    never: &NodeMask,
    atom_never: &AtomMask,
) -> usize {
    solver.complete(graph, never, atom_never).unwrap().len()
}

// One test: what another allocates meanwhile would be counted too.
#[test]
fn a_search() {
    search::<u16>();
    search::<u32>();
}
