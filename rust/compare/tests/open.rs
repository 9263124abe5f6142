//! The call on undecided bits: the quick part of its comparison, by hand, and
//! calls with one fault each, which the comparison must see.

use compare::open::{self, ARCHIVE, Case, Undecided, Watched};
use compare::{cases, tiny};

/// C2, C3 and C6 of document 01 with state 0 undecided, and C10's Implies.
#[test]
fn by_hand() {
    let none: [u64; 1] = [0];
    let lists = |name: &str, open: u64, atom_open: u64| {
        let words = cases::all()
            .into_iter()
            .find(|case| case.name == name)
            .expect(name)
            .content
            .words();
        let (mut always, mut sometimes, mut work) = ([7], [7], vec![7; 32_768]);
        founded::undecided(
            &words,
            &none,
            &none,
            &[open],
            &[atom_open],
            &mut always,
            &mut sometimes,
            &mut work,
        )
        .expect(name);
        (always[0], sometimes[0])
    };
    // Both hold each other up: state 0 ruled out is not missing, state 1 always is.
    assert_eq!(lists("C2", 0, 1), (2, 3));
    // With a fact for state 0 nothing is missing, unless it is ruled out.
    assert_eq!(lists("C3", 0, 1), (0, 2));
    assert_eq!(lists("C3", 1, 0), (0, 2));
    assert_eq!(lists("C6", 0, 1), (0, 1));
    // Nothing undecided; bits past the last number are decided.
    assert_eq!(lists("C2", 0, 0), (3, 3));
    assert_eq!(lists("C2", !3, !3), (3, 3));
}

#[test]
fn every_tiny_content() {
    for (atoms, nodes, rules, list) in [(1, 1, 1, 2), (2, 1, 1, 2), (1, 2, 2, 1)] {
        let sizes = tiny::Sizes {
            atoms,
            nodes,
            rules,
            list,
        };
        open::contents(ARCHIVE, sizes).expect("no difference");
    }
}

#[test]
fn random_graphs() {
    let tally = open::graphs(ARCHIVE, 1, 0, 6_000).expect("no difference");
    for number in [10, 11, 12, 21] {
        assert!(tally.refused[number] > 20, "{number}: {tally:?}");
    }
    assert!(tally.differ > 300, "{tally:?}");
}

#[test]
fn large_graphs() {
    let tally = open::large(ARCHIVE, 1, 0, 24).expect("no difference");
    assert!(tally.passes > 200 && tally.differ > 4, "{tally:?}");
}

/// Each fault changes one thing of the archive's own call.
#[allow(unused_unsafe)] // Not every body needs it.
mod fault {
    use super::ARCHIVE;

    macro_rules! fault {
        ($name:ident($lent:ident, $answer:ident) $body:expr) => {
            #[allow(clippy::too_many_arguments)]
            pub unsafe extern "C" fn $name(
                g: *const u16,
                gl: usize,
                n: *const u64,
                nl: usize,
                a: *const u64,
                al: usize,
                p: *const u64,
                pl: usize,
                q: *const u64,
                ql: usize,
                x: *mut u64,
                xl: usize,
                y: *mut u64,
                yl: usize,
                w: *mut u16,
                wl: usize,
            ) -> u32 {
                let $lent = (
                    (g, gl),
                    (n, nl),
                    (a, al),
                    (p, pl),
                    (q, ql),
                    (x, xl),
                    (y, yl),
                    (w, wl),
                );
                let $answer =
                    unsafe { ARCHIVE(g, gl, n, nl, a, al, p, pl, q, ql, x, xl, y, yl, w, wl) };
                unsafe { $body }
            }
        };
    }

    // The lists change places.
    fault!(swapped(l, answer) {
        if l.5.1 > 0 && l.6.1 == l.5.1 {
            let first = *l.5.0;
            *l.5.0 = *l.6.0;
            *l.6.0 = first;
        }
        answer
    });

    // The first list keeps the undecided states that the second has.
    fault!(undecided_listed(l, answer) {
        if answer == 0 && l.5.1 > 0 {
            *l.5.0 |= *l.6.0 & *l.4.0;
        }
        answer
    });

    // The second list is the first.
    fault!(always_twice(l, answer) {
        if answer == 0 && l.5.1 > 0 {
            *l.6.0 = *l.5.0;
        }
        answer
    });

    // A refusal writes the second output.
    fault!(written(l, answer) {
        if answer != 0 && l.6.1 > 0 {
            *l.6.0 = 0;
        }
        answer
    });

    // The word before the first list.
    fault!(beside(l, answer) {
        if answer == 0 {
            *l.5.0.sub(1) ^= 1;
        }
        answer
    });

    // A word of the work area stays.
    fault!(dirty(l, answer) {
        if answer == 0 {
            *l.7.0.add(100) = 1;
        }
        answer
    });

    // 11 is given before 21.
    fault!(work_first(l, answer) {
        if answer == 21 << 16 && l.7.1 != 32_768 { 11 << 16 } else { answer }
    });

    // 21 is not given at all, with what was there before as lists.
    fault!(both_pass(l, answer) {
        let _ = l;
        if answer == 21 << 16 { 0 } else { answer }
    });

    // The undecided states are written to.
    fault!(mask_written(l, answer) {
        if answer == 0 && l.4.1 > 0 {
            *l.4.0.cast_mut() ^= 1 << 63;
        }
        answer
    });
}

/// Small graphs, and the first with a number in both masks and a wrong work area.
fn found(call: Undecided) -> Option<String> {
    let mut watched = Watched::new(call);
    let words = cases::all()
        .into_iter()
        .find(|case| case.name == "C2")
        .expect("C2")
        .content
        .words();
    let masks = |never: u64, atom_never: u64, open: u64, atom_open: u64| {
        [never, atom_never, open, atom_open].map(|mask| vec![mask])
    };
    let mut both = Case::new(&words, masks(0, 1, 0, 1));
    both.work -= 1;
    let mut all = vec![both];
    all.extend((0..256).map(|bits: u64| {
        let two = |from: u64| bits >> from & 3;
        Case::new(&words, masks(two(0), two(2), two(4), two(6)))
    }));
    all.iter().find_map(|case| watched.compare(case).err())
}

#[test]
fn faults_are_seen() {
    assert_eq!(found(ARCHIVE), None);
    let faults: [(Undecided, &str); 9] = [
        (fault::swapped, "first list"),
        (fault::undecided_listed, "first list"),
        (fault::always_twice, "second list"),
        (fault::written, "second list"),
        (fault::beside, "first list"),
        (fault::dirty, "work area"),
        (fault::work_first, "11 at 0"),
        (fault::both_pass, "0 at 0"),
        (fault::mask_written, "undecided atoms"),
    ];
    for (call, what) in faults {
        let said = found(call).expect(what);
        assert!(said.contains(what), "{said} for {what}");
    }
}
