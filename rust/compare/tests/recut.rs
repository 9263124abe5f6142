//! Request 7 over runs of the proved calls, and calls with one fault each, which
//! the relations must see.

use compare::calls::{Calls, Word};
use compare::runs;

#[test]
fn every_tiny_content() {
    for sizes in runs::tiny_sizes(&runs::QUICK_CONTENTS) {
        runs::recut_contents(u16::ARCHIVE, sizes).expect("each relation holds");
    }
}

#[test]
fn random_graphs() {
    let held = runs::recut(u16::ARCHIVE, 7, 0, 4_000).expect("each relation holds");
    assert!(held.loops > 0 && held.loops < held.graphs && held.grown > 0);
    runs::recut(u32::ARCHIVE, 7, 0, 4_000).expect("each relation holds");
}

/// A pass of the archive whose arguments or output the body changes.
macro_rules! pass {
    ($name:ident($never:ident, $atom_never:ident, $output:ident) $before:block $after:block) => {
        #[allow(clippy::too_many_arguments)]
        unsafe extern "C" fn $name(
            graph: *const u16,
            graph_len: usize,
            never: *const u64,
            never_len: usize,
            atom_never: *const u64,
            atom_never_len: usize,
            output: *mut u64,
            output_len: usize,
            work: *mut u16,
            work_len: usize,
        ) -> u32 {
            // Safety: the slices are the test's own.
            unsafe {
                #[allow(unused_mut)]
                let mut $never = std::slice::from_raw_parts(never, never_len).to_vec();
                #[allow(unused_mut)]
                let mut $atom_never =
                    std::slice::from_raw_parts(atom_never, atom_never_len).to_vec();
                $before
                let code = (u16::ARCHIVE.complete)(
                    graph,
                    graph_len,
                    $never.as_ptr(),
                    never_len,
                    $atom_never.as_ptr(),
                    atom_never_len,
                    output,
                    output_len,
                    work,
                    work_len,
                );
                #[allow(unused_variables)]
                let $output = std::slice::from_raw_parts_mut(output, output_len);
                if code == 0 {
                    $after
                }
                code
            }
        }
    };
}

// Cuts of atoms play no part.
pass!(atoms_uncut(never, atom_never, output) { atom_never.fill(0); } {});
// With something cut the lowest atom is on the list.
pass!(one_more(never, atom_never, output) {} {
    if let [first, ..] = output && atom_never[0] & 3 != 0 {
        *first |= 1;
    }
});
// What is cut is what is not: more cuts are fewer.
pass!(turned(never, atom_never, output) { never.iter_mut().for_each(|word| *word = !*word); } {});
// A list is never empty.
pass!(never_empty(never, atom_never, output) {} {
    if let [first, ..] = output && *first == 0 {
        *first = 1;
    }
});

unsafe extern "C" fn no_loop(
    graph: *const u16,
    graph_len: usize,
    work: *mut u16,
    work_len: usize,
) -> u32 {
    // Safety: the slices are the test's own.
    let code = unsafe { (u16::ARCHIVE.needed)(graph, graph_len, work, work_len) };
    if code == 1 { 0 } else { code }
}

#[test]
fn each_fault_is_seen() {
    let pass = |complete| Calls {
        complete,
        ..u16::ARCHIVE
    };
    let no = Calls {
        needed: no_loop,
        ..u16::ARCHIVE
    };
    let faults = [
        (pass(atoms_uncut), "of it cut too"),
        (pass(one_more), "of it cut too"),
        (pass(turned), "with more cuts"),
        (pass(never_empty), "of it cut too"),
        (no, "the loop test says false"),
    ];
    for (calls, what) in faults {
        let said = runs::recut(calls, 7, 0, 1_000).expect_err(what).what;
        assert!(said.contains(what), "{said:?} for {what:?}");
    }
}
