//! The pass within an allowance: counts worked by hand, and calls with one fault each,
//! which the comparison must see.

use compare::agree::{Masks, Side, compare as answers};
use compare::calls::{Calls, Word};
use compare::{cases, within};
use paper::Graph;

/// The count of a lone pass on these words.
fn count(words: &[u16], (never, atom_never): &Masks) -> u64 {
    let graph = Graph::decode(words).expect("accepted");
    graph.prepared().expect("no 12").work(never, atom_never)
}

/// C1 to C11, by hand.
#[test]
fn counts_of_the_cases() {
    let mut counts: Vec<_> = cases::all()
        .iter()
        .filter(|case| matches!(case.expected, cases::Expected::Answers(..)))
        .map(|case| (case.name, count(&case.content.words(), &case.masks())))
        .collect();
    counts.dedup_by_key(|(name, _)| *name);
    let by_hand = [
        ("C1", 0),
        ("C2", 0),
        ("C3", 9), // 1 + 2·(1 + 1) + 2·(1 + 1): the bound, 2 + 4 + 0 + 3
        ("C4", 1),
        ("C5", 3),
    ];
    for (name, count) in by_hand {
        assert!(counts.contains(&(name, count)), "{name}: {counts:?}");
    }
}

/// All entries are counted, in the second cone or not, repeats and cut heads too.
#[test]
fn what_is_counted() {
    let clear = (vec![0], vec![0]);
    // Atom 0 named twice, a rule from the first, a fact: the bound is 7.
    let twice = [1, 1, 2, 2, 2, 1, 0, 0, 1, 0, 0, 1, 1, 0, 2, 0, 0, 0, 0];
    assert_eq!(count(&twice, &clear), 6);
    // The heater's rules, and a fact with the heads 0, 0 and 2, of which 2 is in no loop.
    let fact = [
        1, 3, 2, 3, 5, 1, 0, 0, 1, 1, 0, 2, 1, 1, 2, 0, 3, 0, 0, 1, 0, 0, 4, 0, 5, 2, 0,
    ];
    assert_eq!(count(&fact, &(vec![0], vec![0])), 9 + 2);
    // Atom 0 cut: the three heads of the fact alone.
    assert_eq!(count(&fact, &(vec![0], vec![1])), 3);
    // A fact without a marked head counts nothing.
    let idle = [1, 1, 0, 1, 1, 0, 1, 0, 0];
    assert_eq!(count(&idle, &(vec![], vec![0])), 0);
}

/// Graphs with counts, with none, and refused.
fn graphs() -> Vec<(Vec<u16>, Masks)> {
    let mut graphs: Vec<_> = cases::all()
        .iter()
        .map(|case| (case.content.words(), case.masks()))
        .collect();
    let parent_outside = vec![
        1, 1, 2, 2, 3, 1, 0, 0, 3, 0, 1, 1, 2, 0, 3, 0, 0, 0, 0, 0, 0,
    ];
    graphs.push((parent_outside, (vec![0], vec![0])));
    graphs
}

/// The first difference over the graphs.
fn found(calls: Calls<u16>) -> Option<String> {
    let (mut plain, mut side) = (Side::new(u16::ARCHIVE), Side::new(calls));
    let mut differs = |words: &[u16], masks: &Masks| {
        let masks = std::slice::from_ref(masks);
        let Some(answers) = answers(words, masks, &mut plain).expect("no difference") else {
            return Ok(());
        };
        within::compare(words, masks, &answers, &mut side)?;
        within::wrong_lengths(words, &mut side.ours)
    };
    let graphs = graphs();
    let mut found = graphs
        .iter()
        .filter_map(|(words, masks)| differs(words, masks).err());
    found.next().map(|difference| difference.what)
}

/// Faults that such a call is likely to have.
mod fault {
    use founded::raw::{founded_complete, founded_complete_within};

    /// A call under this name whose answer and memory the body may spoil.
    macro_rules! fault {
        ($name:ident($lent:ident, $was:ident, $answer:ident) $body:expr) => {
            #[allow(clippy::too_many_arguments)]
            pub unsafe extern "C" fn $name(
                g: *const u16,
                gl: usize,
                n: *const u64,
                nl: usize,
                a: *const u64,
                al: usize,
                o: *mut u64,
                ol: usize,
                w: *mut u16,
                wl: usize,
                m: *mut u64,
            ) -> u32 {
                #[allow(unused_unsafe)]
                unsafe {
                    let $was = *m;
                    let $answer = founded_complete_within(g, gl, n, nl, a, al, o, ol, w, wl, m);
                    #[allow(unused_variables)]
                    let $lent = ((g, gl), (n, nl), (a, al), (o, ol), (w, wl), m);
                    $body
                }
            }
        };
    }

    /// The list of the lone pass, into the output.
    macro_rules! list {
        ($lent:ident) => {{
            let ((g, gl), (n, nl), (a, al), (o, ol), (w, wl), _) = $lent;
            founded_complete(g, gl, n, nl, a, al, o, ol, w, wl)
        }};
    }

    fault!(fifteen_writes(lent, _was, answer) {
        if answer >> 16 == 15 {
            *lent.3.0 ^= 1 << 60;
        }
        answer
    });
    fault!(fifteen_keeps_the_meter(lent, was, answer) {
        if answer >> 16 == 15 {
            *lent.5 = was;
        }
        answer
    });
    fault!(fifteen_keeps_the_work_area(lent, _was, answer) {
        if answer >> 16 == 15 {
            *lent.4.0 = 7;
        }
        answer
    });
    fault!(equal_is_refused(lent, was, answer) {
        if answer == 0 && *lent.5 == 0 && was > 0 { 15 << 16 } else { answer }
    });
    fault!(one_more_passes(lent, was, answer) {
        if answer >> 16 == 15 && was > 0 {
            list!(lent);
            return 0;
        }
        answer
    });
    fault!(one_too_few(lent, was, answer) {
        if answer == 0 && *lent.5 < was {
            *lent.5 += 1;
        }
        answer
    });
    fault!(the_meter_grows(lent, _was, answer) {
        if answer == 0 {
            *lent.5 = (*lent.5).wrapping_add(1);
        }
        answer
    });
    fault!(twelve_charges(lent, _was, answer) {
        if answer >> 16 == 12 {
            *lent.5 = 0;
        }
        answer
    });
    fault!(fifteen_before_twelve(_lent, was, answer) {
        if answer >> 16 == 12 && was == 0 { 15 << 16 } else { answer }
    });
    fault!(ten_charges(lent, was, answer) {
        if answer >> 16 == 10 && was > 0 {
            *lent.5 = was - 1;
        }
        answer
    });
    fault!(eleven_takes_all(lent, _was, answer) {
        if answer >> 16 == 11 {
            *lent.5 = 0;
        }
        answer
    });
    fault!(beside_the_meter(lent, _was, answer) {
        *lent.5.add(1) = 0;
        answer
    });
}

#[test]
fn each_fault_is_seen() {
    assert_eq!(found(u16::ARCHIVE), None);
    let meter = "our complete_within's allowance";
    let answered = "our complete_within: ";
    let faults: [(compare::calls::Within<u16>, &str); 12] = [
        (fault::fifteen_writes, "our complete_within's output"),
        (fault::fifteen_keeps_the_meter, meter),
        (
            fault::fifteen_keeps_the_work_area,
            "our complete_within's work area is not all zero",
        ),
        (fault::equal_is_refused, answered),
        (fault::one_more_passes, answered),
        (fault::one_too_few, meter),
        (fault::the_meter_grows, meter),
        (fault::twelve_charges, meter),
        (fault::fifteen_before_twelve, answered),
        (fault::ten_charges, meter),
        (fault::eleven_takes_all, meter),
        (fault::beside_the_meter, meter),
    ];
    for (call, what) in faults {
        let calls = Calls {
            within: Some(call),
            ..u16::ARCHIVE
        };
        let said = found(calls).expect(what);
        assert!(said.contains(what), "{said:?} for {what:?}");
    }
}
