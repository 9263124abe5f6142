//! How many bytes of stack the calls take, in either edition.
//!
//! Each runs on a stack of its own that was full of one pattern; what differs
//! from it afterwards was used. A call that does nothing is measured the same
//! way, so that what is left is the call's own, return address included.
#![cfg(target_arch = "x86_64")]

use std::arch::asm;

use compare::calls::{Calls, Word, word};
use compare::cases;
use compare::edges;

/// "A few hundred bytes": 600 at the deepest, edition 1's pass, when this was written.
const MOST: usize = 640;

const PATTERN: u64 = 0xA5A5_5A5A_A5A5_5A5A;

/// What is lent to a call, and which call it is.
struct Lent<W: Word> {
    calls: Calls<W>,
    which: usize,
    graph: Vec<W>,
    never: Vec<u64>,
    atom_never: Vec<u64>,
    output: Vec<u64>,
    work: Vec<W>,
    allowance: u64,
    /// Of a search branch.
    masks: [Vec<u64>; 2],
    lists: Vec<u64>,
    branch_work: Vec<W>,
    made: bool,
}

/// Check, loop test, preparation, pass; the pass with every atom marked in edition 1,
/// the length of the work area in edition 2; the pass within an allowance and a search
/// branch in edition 1.
const CALLS: usize = 7;

/// Pairs of a search branch.
const PAIRS: usize = 3;

impl<W: Word> Lent<W> {
    fn new(graph: &[W]) -> Self {
        let mask = |count: W| vec![0; count.number().div_ceil(64)];
        Self {
            calls: W::ARCHIVE,
            which: 0,
            graph: graph.to_vec(),
            never: mask(graph[2]),
            atom_never: mask(graph[1]),
            output: mask(graph[1]),
            work: vec![word(0); paper::work_words(graph)],
            allowance: 0,
            masks: [2, 1].map(|at| mask(graph[at]).repeat(PAIRS)),
            lists: mask(graph[1]).repeat(PAIRS),
            branch_work: vec![word(0); paper::BRANCH_WORK_WORDS],
            made: false,
        }
    }
}

/// Makes the call on the stack that it is itself on.
unsafe extern "C" fn make<W: Word>(lent: *mut Lent<W>) {
    // SAFETY: `used` hands over a live `Lent` that nothing else uses; pointers
    // and lengths are those of its vectors, which are apart.
    unsafe {
        let lent = &mut *lent;
        let (graph, len) = (lent.graph.as_ptr(), lent.graph.len());
        let (output, output_len) = (lent.output.as_mut_ptr(), lent.output.len());
        let (work, work_len) = (lent.work.as_mut_ptr(), lent.work.len());
        lent.made = true;
        match lent.which {
            0 => _ = (lent.calls.check)(graph, len),
            1 => _ = (lent.calls.needed)(graph, len, work, work_len),
            2 => _ = (lent.calls.prepare)(graph, len, output, output_len, work, work_len),
            3 | 4 if lent.which == 3 || lent.calls.unfounded.is_some() => {
                let pass = match (lent.which, lent.calls.unfounded) {
                    (4, Some(unfounded)) => unfounded,
                    _ => lent.calls.complete,
                };
                _ = pass(
                    graph,
                    len,
                    lent.never.as_ptr(),
                    lent.never.len(),
                    lent.atom_never.as_ptr(),
                    lent.atom_never.len(),
                    output,
                    output_len,
                    work,
                    work_len,
                );
            }
            4 => match lent.calls.work_words {
                Some(work_words) => _ = work_words(graph, len),
                None => lent.made = false,
            },
            5 => match lent.calls.within {
                Some(within) => {
                    lent.allowance = u64::MAX;
                    _ = within(
                        graph,
                        len,
                        lent.never.as_ptr(),
                        lent.never.len(),
                        lent.atom_never.as_ptr(),
                        lent.atom_never.len(),
                        output,
                        output_len,
                        work,
                        work_len,
                        &raw mut lent.allowance,
                    );
                }
                None => lent.made = false,
            },
            _ => match lent.calls.branch {
                Some(branch) => {
                    let [never, atom_never] = &lent.masks;
                    _ = branch(
                        graph,
                        len,
                        PAIRS,
                        never.as_ptr(),
                        never.len(),
                        atom_never.as_ptr(),
                        atom_never.len(),
                        lent.lists.as_mut_ptr(),
                        lent.lists.len(),
                        lent.branch_work.as_mut_ptr(),
                        lent.branch_work.len(),
                    );
                }
                None => lent.made = false,
            },
        }
    }
}

/// The bytes of a fresh stack that one of the calls leaves other than before;
/// none if there is no such call.
fn used<W: Word>(lent: &mut Lent<W>, calls: Calls<W>, which: usize) -> Option<usize> {
    (lent.calls, lent.which) = (calls, which);
    let mut stack = vec![[PATTERN; 2]; 4_096];
    let top = stack.as_mut_ptr_range().end.addr() & !15;
    // SAFETY: the stack is 64 KiB, aligned as the convention asks, and lives
    // until the call is over; the old stack pointer is in a register that
    // `make` keeps, and is put back.
    unsafe {
        asm!(
            "mov r12, rsp",
            "mov rsp, {top}",
            "call {make}",
            "mov rsp, r12",
            out("r12") _,
            top = in(reg) top,
            make = in(reg) make::<W> as *const (),
            in("rdi") &raw mut *lent,
            clobber_abi("C"),
        );
    }
    let left = stack
        .iter()
        .flatten()
        .take_while(|&&word| word == PATTERN)
        .count();
    lent.made.then_some(8 * (2 * stack.len() - left))
}

/// Calls that do nothing.
mod nothing {
    use super::Word;

    pub unsafe extern "C" fn check<W: Word>(_: *const W, _: usize) -> W::Code {
        W::code(0, 0)
    }
    pub unsafe extern "C" fn work_words<W: Word>(_: *const W, _: usize) -> u64 {
        0
    }
    pub unsafe extern "C" fn needed<W: Word>(
        _: *const W,
        _: usize,
        _: *mut W,
        _: usize,
    ) -> W::Code {
        W::code(0, 0)
    }
    pub unsafe extern "C" fn prepare<W: Word>(
        _: *const W,
        _: usize,
        _: *mut u64,
        _: usize,
        _: *mut W,
        _: usize,
    ) -> W::Code {
        W::code(0, 0)
    }
    pub unsafe extern "C" fn complete<W: Word>(
        _: *const W,
        _: usize,
        _: *const u64,
        _: usize,
        _: *const u64,
        _: usize,
        _: *mut u64,
        _: usize,
        _: *mut W,
        _: usize,
    ) -> W::Code {
        W::code(0, 0)
    }
    #[allow(clippy::too_many_arguments)]
    pub unsafe extern "C" fn within<W: Word>(
        _: *const W,
        _: usize,
        _: *const u64,
        _: usize,
        _: *const u64,
        _: usize,
        _: *mut u64,
        _: usize,
        _: *mut W,
        _: usize,
        _: *mut u64,
    ) -> W::Code {
        W::code(0, 0)
    }
    pub unsafe extern "C" fn branch<W: Word>(
        _: *const W,
        _: usize,
        _: usize,
        _: *const u64,
        _: usize,
        _: *const u64,
        _: usize,
        _: *mut u64,
        _: usize,
        _: *mut W,
        _: usize,
    ) -> W::Code {
        W::code(0, 0)
    }
}

fn nothing<W: Word>() -> Calls<W> {
    Calls {
        check: nothing::check,
        work_words: W::ARCHIVE.work_words.map(|_| nothing::work_words as _),
        needed: nothing::needed,
        prepare: nothing::prepare,
        complete: nothing::complete,
        unfounded: W::ARCHIVE.unfounded.map(|_| nothing::complete as _),
        within: W::ARCHIVE.within.map(|_| nothing::within as _),
        branch: W::ARCHIVE.branch.map(|_| nothing::branch as _),
    }
}

/// The most that each call takes over the graphs; 0 if there is no such call.
fn most<W: Word>(graphs: &[Vec<W>]) -> [usize; CALLS] {
    let mut most = [0; CALLS];
    for graph in graphs {
        let mut lent = Lent::new(graph);
        for (which, most) in most.iter_mut().enumerate() {
            let all = used(&mut lent, W::ARCHIVE, which);
            let idle = used(&mut lent, nothing(), which);
            if let (Some(all), Some(idle)) = (all, idle) {
                // The idle call has a return address too.
                *most = (all - idle + 8).max(*most);
            }
        }
    }
    most
}

/// C1 to C12, among them refusals; then small graphs and large ones of one shape.
fn measured<W: Word>(calls: usize) {
    let cases: Vec<Vec<W>> = cases::all()
        .iter()
        .map(|case| {
            let mut words = case.content.words();
            words[0] = W::EDITION.number as u16;
            words.into_iter().map(W::from).collect()
        })
        .collect();
    let (small, large) = (most(&edges::full::<W>(16)), most(&edges::largest::<W>()));
    let mut all = most(&cases);
    for (most, &large) in all.iter_mut().zip(&large) {
        *most = large.max(*most);
    }
    println!(
        "edition {}, bytes of check, loop test, preparation, pass, unfounded or work_words, within, branch: {all:?}",
        W::EDITION.number
    );
    assert_eq!(small, large, "the same whatever the size");
    // Each takes some: the measurement sees it.
    let right = |bytes: &usize| (32..=MOST).contains(bytes);
    assert!(all[..calls].iter().all(right), "{all:?}");
}

#[test]
fn a_call_takes_a_few_hundred_bytes_of_stack() {
    measured::<u16>(7);
    measured::<u32>(5);
}
