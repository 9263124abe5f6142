//! Calls with one fault each: the comparison must see it.

use compare::agree::{Difference, Masks, Side, compare, compare_both, wrong_lengths};
use compare::calls::{Calls, Word, widened};
use compare::{cases, edges};

/// The first difference over the graphs, of small ones also with wrong lengths.
fn found<W: Word>(calls: Calls<W>, graphs: &[(Vec<W>, Masks)]) -> Option<String> {
    let mut side = Side::new(calls);
    let mut differs = |words: &[W], masks: &Masks| -> Result<(), Difference> {
        compare(words, std::slice::from_ref(masks), &mut side)?;
        if words.len() < 100 {
            wrong_lengths(words, &mut side.ours)?;
        }
        Ok(())
    };
    let mut found = graphs
        .iter()
        .filter_map(|(words, masks)| differs(words, masks).err());
    found.next().map(|difference| difference.what)
}

/// Each fault is seen, and said to be what it is.
fn seen<W: Word>(faults: &[(Calls<W>, &str)], graphs: &[(Vec<W>, Masks)]) {
    assert_eq!(found(W::ARCHIVE, graphs), None);
    for (calls, what) in faults {
        let said = found(*calls, graphs).expect(what);
        assert!(said.contains(what), "{said:?} for {what:?}");
    }
}

/// Graphs with a loop, with nothing missing, with refusals 1, 4 and 12; the 1 is
/// for the other edition.
fn small() -> Vec<(Vec<u16>, Masks)> {
    let mut graphs: Vec<_> = cases::all()
        .iter()
        .map(|case| (case.content.words(), case.masks()))
        .collect();
    let clear: Masks = (vec![0], vec![0]);
    graphs.push((vec![1, 1, 2, 0, 0, 1, 0, 0, 8, 0, 0], clear));
    graphs.push((vec![2, 0, 0, 0, 0], Masks::default()));
    graphs
}

/// The same in edition 2.
fn small_wide() -> Vec<(Vec<u32>, Masks)> {
    let wide = |(words, masks): (Vec<u16>, Masks)| (widened(&words), masks);
    small().into_iter().map(wide).collect()
}

/// One more than the limits, places and atoms that 16 bits have no room for; and
/// the small ones, some with entries.
fn wide() -> Vec<(Vec<u32>, Masks)> {
    let named = [
        "262145 atoms",
        "1048577 leaf entries",
        "4 above 65535",
        "12 above 65535",
    ];
    let mut graphs: Vec<_> = edges::all::<u32>()
        .into_iter()
        .filter(|edge| named.contains(&&edge.name[..]))
        .map(|edge| edge.words)
        .collect();
    graphs.push(edges::full(70_000).swap_remove(0));
    let clear = |count: u32| vec![0; paper::mask_len(count as usize)];
    let masked = |words: Vec<u32>| match paper::check(&words) {
        Ok(()) => (words.clone(), (clear(words[2]), clear(words[1]))),
        Err(_) => (words, Masks::default()),
    };
    let mut all = small_wide();
    all.extend(graphs.into_iter().map(masked));
    all
}

/// Each fault changes one thing of the archive's own call.
#[allow(unused_unsafe)] // Not every body needs it.
mod fault {
    use super::Word;

    /// A call under this name whose answer and memory the body may spoil.
    macro_rules! fault {
        (check $name:ident($graph:ident, $len:ident, $answer:ident) $body:expr) => {
            pub unsafe extern "C" fn $name<W: Word>($graph: *const W, $len: usize) -> W::Code {
                let $answer = unsafe { (W::ARCHIVE.check)($graph, $len) };
                unsafe { $body }
            }
        };
        (needed $name:ident($work:ident, $n:ident, $answer:ident) $body:expr) => {
            pub unsafe extern "C" fn $name<W: Word>(
                graph: *const W,
                len: usize,
                $work: *mut W,
                $n: usize,
            ) -> W::Code {
                let $answer = unsafe { (W::ARCHIVE.needed)(graph, len, $work, $n) };
                unsafe { $body }
            }
        };
        (prepare $name:ident($output:ident, $output_len:ident, $answer:ident) $body:expr) => {
            pub unsafe extern "C" fn $name<W: Word>(
                graph: *const W,
                len: usize,
                $output: *mut u64,
                $output_len: usize,
                work: *mut W,
                work_len: usize,
            ) -> W::Code {
                let prepare = W::ARCHIVE.prepare;
                let $answer = unsafe { prepare(graph, len, $output, $output_len, work, work_len) };
                unsafe { $body };
                $answer
            }
        };
        (pass $name:ident($lent:ident, $answer:ident) $body:expr) => {
            #[allow(clippy::too_many_arguments)]
            pub unsafe extern "C" fn $name<W: Word>(
                g: *const W,
                gl: usize,
                n: *const u64,
                nl: usize,
                a: *const u64,
                al: usize,
                o: *mut u64,
                ol: usize,
                w: *mut W,
                wl: usize,
            ) -> W::Code {
                let $lent = ((g, gl), (n, nl), (a, al), (o, ol), (w, wl));
                let $answer = unsafe { (W::ARCHIVE.complete)(g, gl, n, nl, a, al, o, ol, w, wl) };
                unsafe { $body };
                $answer
            }
        };
    }

    fn number<W: Word>(answer: W::Code) -> u32 {
        W::parts(answer).0
    }

    fn success<W: Word>(answer: W::Code) -> bool {
        number::<W>(answer) == 0
    }

    pub unsafe extern "C" fn other_edition<W: Word>(graph: *const W, len: usize) -> W::Code {
        let mut copy = unsafe { std::slice::from_raw_parts(graph, len) }.to_vec();
        if copy[0].into() == 3 - W::EDITION.number {
            copy[0] = W::cut(W::EDITION.number.into());
        }
        unsafe { (W::ARCHIVE.check)(copy.as_ptr(), len) }
    }
    fault!(check place(_graph, _len, answer) {
        if number::<W>(answer) == 4 { W::code(4, 0) } else { answer }
    });
    fault!(check graph(graph, len, answer) {
        graph.cast_mut().add(len - 1).write(W::from(77));
        answer
    });

    fault!(needed no(_work, _n, answer) {
        if W::parts(answer) == (0, 1) { W::code(0, 0) } else { answer }
    });
    fault!(needed work(work, n, answer) {
        if success::<W>(answer) {
            work.add(n - 1).write(W::from(1));
        }
        answer
    });
    fault!(needed past(work, n, answer) {
        work.add(n).write(W::from(0));
        answer
    });
    fault!(needed work_of_4(work, n, answer) {
        if number::<W>(answer) == 4 {
            work.add(n / 2).write(W::from(0));
        }
        answer
    });

    pub unsafe extern "C" fn untouched<W: Word>(
        graph: *const W,
        len: usize,
        _: *mut u64,
        output_len: usize,
        work: *mut W,
        work_len: usize,
    ) -> W::Code {
        let mut output = vec![0; output_len];
        let output = output.as_mut_ptr();
        unsafe { (W::ARCHIVE.prepare)(graph, len, output, output_len, work, work_len) }
    }
    fault!(prepare unused_bit(output, output_len, answer) {
        if success::<W>(answer) && output_len > 0 {
            *output |= 1 << 63;
        }
    });
    fault!(prepare output_of_12(output, _output_len, answer) {
        if number::<W>(answer) == 12 {
            output.write(0);
        }
    });

    fault!(pass all_cyclic(lent, answer) {
        if success::<W>(answer) {
            let ((g, gl), (o, ol), (w, wl)) = (lent.0, lent.3, lent.4);
            (W::ARCHIVE.prepare)(g, gl, o, ol, w, wl);
        }
    });
    fault!(pass node_mask(lent, answer) {
        if success::<W>(answer) && lent.1.1 > 0 {
            *lent.1.0.cast_mut() ^= 1 << 40;
        }
    });
    fault!(pass atom_mask(lent, answer) {
        if success::<W>(answer) {
            *lent.2.0.cast_mut().add(lent.2.1) = 0;
        }
    });
    /// Masks that are shorter than their full lengths, node mask and atom mask.
    unsafe fn short<W: Word>(graph: *const W, len: usize, lengths: [usize; 2]) -> bool {
        let graph = unsafe { std::slice::from_raw_parts(graph, len) };
        let full = [2, 1].map(|at| graph.get(at).map_or(0, |&n| n.into() as usize));
        (0..2).any(|of| lengths[of] < paper::mask_len(full[of]))
    }

    #[allow(clippy::too_many_arguments)]
    pub unsafe extern "C" fn short_refused<W: Word>(
        g: *const W,
        gl: usize,
        n: *const u64,
        nl: usize,
        a: *const u64,
        al: usize,
        o: *mut u64,
        ol: usize,
        w: *mut W,
        wl: usize,
    ) -> W::Code {
        if unsafe { short(g, gl, [nl, al]) } {
            return W::code(10, 0);
        }
        unsafe { (W::ARCHIVE.complete)(g, gl, n, nl, a, al, o, ol, w, wl) }
    }

    #[allow(clippy::too_many_arguments)]
    pub unsafe extern "C" fn past_the_end_is_cut<W: Word>(
        g: *const W,
        gl: usize,
        n: *const u64,
        nl: usize,
        a: *const u64,
        al: usize,
        o: *mut u64,
        ol: usize,
        w: *mut W,
        wl: usize,
    ) -> W::Code {
        if !unsafe { short(g, gl, [nl, al]) } {
            return unsafe { (W::ARCHIVE.complete)(g, gl, n, nl, a, al, o, ol, w, wl) };
        }
        let mut mask = unsafe { std::slice::from_raw_parts(a, al) }.to_vec();
        mask.resize(ol.max(al), !0);
        let (a, al) = (mask.as_ptr(), mask.len());
        unsafe { (W::ARCHIVE.complete)(g, gl, n, nl, a, al, o, ol, w, wl) }
    }

    fault!(pass before_output(lent, answer) {
        if success::<W>(answer) {
            *lent.3.0.sub(1) = 0;
        }
    });
    fault!(pass work_of_10(lent, answer) {
        if number::<W>(answer) == 10 && lent.4.1 > 0 {
            lent.4.0.write(W::from(0));
        }
    });
    fault!(pass work_of_12(lent, answer) {
        if number::<W>(answer) == 12 {
            lent.4.0.write(W::from(1));
        }
    });
    fault!(pass output_of_11(lent, answer) {
        if number::<W>(answer) == 11 && lent.3.1 > 0 {
            *lent.3.0 ^= 1;
        }
    });
}

/// The archive's calls, one of them changed.
fn with<W: Word>(change: impl FnOnce(&mut Calls<W>)) -> Calls<W> {
    let mut calls = W::ARCHIVE;
    change(&mut calls);
    calls
}

/// The faults that a call of either edition can have.
fn faults<W: Word>() -> Vec<(Calls<W>, &'static str)> {
    vec![
        (
            with(|calls| calls.check = fault::other_edition),
            "our check: (0, 0)",
        ),
        (
            with(|calls| calls.check = fault::place),
            "our check: (4, 0)",
        ),
        (
            with(|calls| calls.check = fault::graph),
            "our check wrote to the graph",
        ),
        (with(|calls| calls.needed = fault::no), "our needed: (0, 0)"),
        (
            with(|calls| calls.needed = fault::work),
            "our needed's work area is not all zero",
        ),
        (
            with(|calls| calls.needed = fault::past),
            "our needed's work area",
        ),
        (
            with(|calls| calls.needed = fault::work_of_4),
            "our work area is not unchanged after the graph's refusal",
        ),
        (
            with(|calls| calls.prepare = fault::untouched),
            "our prepare's output",
        ),
        (
            with(|calls| calls.prepare = fault::unused_bit),
            "our prepare's output",
        ),
        (
            with(|calls| calls.prepare = fault::output_of_12),
            "our prepare's output",
        ),
        (
            with(|calls| calls.complete = fault::all_cyclic),
            "our complete's output",
        ),
        (
            with(|calls| calls.complete = fault::node_mask),
            "our complete wrote to the node mask",
        ),
        (
            with(|calls| calls.complete = fault::atom_mask),
            "our complete wrote to the atom mask",
        ),
        (
            with(|calls| calls.complete = fault::before_output),
            "our complete's output",
        ),
        (
            with(|calls| calls.complete = fault::work_of_10),
            "with wrong lengths, our complete's work area is not unchanged",
        ),
        (
            with(|calls| calls.complete = fault::short_refused),
            "with wrong lengths, our complete: (10, 0)",
        ),
        (
            with(|calls| calls.complete = fault::past_the_end_is_cut),
            "with wrong lengths, our complete's output",
        ),
        (
            with(|calls| calls.complete = fault::work_of_12),
            "our complete's work area is not all zero",
        ),
        (
            with(|calls| calls.complete = fault::output_of_11),
            "with wrong lengths, our complete's output",
        ),
    ]
}

#[test]
fn each_fault_is_seen() {
    seen(&faults::<u16>(), &small());
    seen(&faults::<u32>(), &small_wide());
}

/// A fault of edition 2 is seen where edition 1's graph is laid out in it too.
#[test]
fn each_fault_is_seen_beside_edition_1() {
    for (calls, what) in faults::<u32>() {
        let (mut narrow, mut wide) = (Side::new(u16::ARCHIVE), Side::new(calls));
        let mut one = |(words, masks): &(Vec<u16>, Masks)| {
            compare_both(words, std::slice::from_ref(masks), &mut narrow, &mut wide)
                .and_then(|()| wrong_lengths(&widened(words), &mut wide.ours))
                .err()
        };
        let difference = small().iter().find_map(&mut one).expect(what);
        assert_eq!(difference.edition, 2);
        assert!(difference.what.contains(what), "{}", difference.what);
    }
}

/// Request 6's call with atoms cut nowhere.
#[allow(clippy::too_many_arguments)]
unsafe extern "C" fn atoms_uncut(
    graph: *const u16,
    graph_len: usize,
    never: *const u64,
    never_len: usize,
    _: *const u64,
    atom_never_len: usize,
    output: *mut u64,
    output_len: usize,
    work: *mut u16,
    work_len: usize,
) -> u32 {
    let clear = vec![0; atom_never_len];
    let unfounded = u16::ARCHIVE.unfounded.expect("a call of edition 1");
    // Safety: `clear` is as long as the mask that was lent.
    unsafe {
        unfounded(
            graph,
            graph_len,
            never,
            never_len,
            clear.as_ptr(),
            atom_never_len,
            output,
            output_len,
            work,
            work_len,
        )
    }
}

#[test]
fn each_fault_of_request_6_is_seen() {
    let old = Some(u16::ARCHIVE.complete);
    let faults = [
        with(|calls| calls.unfounded = old),
        with(|calls| calls.unfounded = Some(atoms_uncut)),
    ];
    seen(
        &faults.map(|calls| (calls, "our unfounded's output")),
        &small(),
    );
}

/// Faults that edition 2 is likely to have.
#[allow(unused_unsafe)] // Not every body needs it.
mod wide_fault {
    use founded::raw;
    use std::slice::from_raw_parts;

    const ATOMS: u32 = 262_144;

    pub unsafe extern "C" fn one_more_atom(graph: *const u32, len: usize) -> u64 {
        let mut copy = unsafe { from_raw_parts(graph, len) }.to_vec();
        if copy[1] == ATOMS + 1 {
            copy[1] = ATOMS;
        }
        unsafe { raw::founded_wide_check(copy.as_ptr(), len) }
    }

    pub unsafe extern "C" fn one_more_entry(graph: *const u32, len: usize) -> u64 {
        let answer = unsafe { raw::founded_wide_check(graph, len) };
        if answer >> 32 == 9 { 0 } else { answer }
    }

    pub unsafe extern "C" fn place(graph: *const u32, len: usize) -> u64 {
        let answer = unsafe { raw::founded_wide_check(graph, len) };
        answer & 0xffff_ffff_0000_ffff
    }

    /// 16·(A + N + P + 1).
    unsafe fn without_entries(graph: *const u32, len: usize) -> usize {
        let counts = unsafe { from_raw_parts(graph, len) };
        let sum: u32 = counts.iter().skip(1).take(3).sum();
        16 * (sum as usize + 1)
    }

    /// The loop test with a work area of the right length, the one lent cleared.
    unsafe fn needed_anyway(graph: *const u32, len: usize, work: *mut u32, n: usize) -> u64 {
        let right = unsafe { raw::founded_wide_work_words(graph, len) } as usize;
        let mut area = vec![0; right];
        unsafe {
            work.write_bytes(0, n);
            raw::founded_wide_needed(graph, len, area.as_mut_ptr(), right)
        }
    }

    /// A loop test that takes other lengths of the work area, by this rule.
    macro_rules! needed {
        ($name:ident, |$graph:ident, $len:ident, $n:ident, $right:ident| $takes:expr) => {
            pub unsafe extern "C" fn $name(
                $graph: *const u32,
                $len: usize,
                work: *mut u32,
                $n: usize,
            ) -> u64 {
                let $right = unsafe { raw::founded_wide_work_words($graph, $len) } as usize;
                if $right > 0 && unsafe { $takes } {
                    return unsafe { needed_anyway($graph, $len, work, $n) };
                }
                unsafe { raw::founded_wide_needed($graph, $len, work, $n) }
            }
        };
    }

    needed!(four_fewer, |graph, len, n, right| n + 4 == right);
    needed!(entries_not_counted, |graph, len, n, right| {
        n == without_entries(graph, len)
    });
    needed!(edition_1s_area, |graph, len, n, right| n == 32_768);

    pub unsafe extern "C" fn entries_refused(
        graph: *const u32,
        len: usize,
        work: *mut u32,
        n: usize,
    ) -> u64 {
        let answer = unsafe { raw::founded_wide_needed(graph, len, work, n) };
        let taken = n == unsafe { without_entries(graph, len) };
        if answer < 2 && !taken {
            11 << 32
        } else {
            answer
        }
    }

    pub unsafe extern "C" fn upper_atoms(
        graph: *const u32,
        len: usize,
        output: *mut u64,
        output_len: usize,
        work: *mut u32,
        work_len: usize,
    ) -> u64 {
        let answer =
            unsafe { raw::founded_wide_prepare(graph, len, output, output_len, work, work_len) };
        // Atoms from 65,536 on.
        if answer == 0 && output_len > 1_024 {
            unsafe { output.add(1_024).write_bytes(0, output_len - 1_024) };
        }
        answer
    }

    /// A pass under this name whose output and work area the body may spoil.
    macro_rules! pass {
        ($name:ident, |$o:ident, $ol:ident, $w:ident, $wl:ident| $body:expr) => {
            #[allow(clippy::too_many_arguments)]
            pub unsafe extern "C" fn $name(
                g: *const u32,
                gl: usize,
                n: *const u64,
                nl: usize,
                a: *const u64,
                al: usize,
                $o: *mut u64,
                $ol: usize,
                $w: *mut u32,
                $wl: usize,
            ) -> u64 {
                let answer =
                    unsafe { raw::founded_wide_complete(g, gl, n, nl, a, al, $o, $ol, $w, $wl) };
                if answer == 0 {
                    unsafe { $body };
                }
                answer
            }
        };
    }

    pass!(upper_bits, |o, ol, _w, _wl| for i in 0..ol {
        *o.add(i) &= 0xffff_ffff;
    });
    pass!(last_words, |_o, _ol, w, wl| {
        w.add(wl - 4).write_bytes(0xff, 4);
    });
    pass!(above_edition_1s, |_o, _ol, w, wl| if wl > 32_768 {
        w.add(32_768).write(7);
    });
    pass!(after_the_area, |_o, _ol, w, wl| w.add(wl).write(0));

    /// The length of the work area, changed by the body.
    macro_rules! work_words {
        ($name:ident, |$graph:ident, $len:ident, $right:ident| $body:expr) => {
            pub unsafe extern "C" fn $name($graph: *const u32, $len: usize) -> u64 {
                let $right = unsafe { raw::founded_wide_work_words($graph, $len) };
                unsafe { $body }
            }
        };
    }

    work_words!(no_one, |graph, len, right| right.saturating_sub(16));
    work_words!(no_entries, |graph, len, right| {
        right.min(without_entries(graph, len) as u64)
    });
    work_words!(of_refused, |graph, len, right| {
        right.max(without_entries(graph, len) as u64)
    });
    work_words!(in_16_bits, |graph, len, right| right & 0xffff);
    work_words!(graph_written, |graph, len, right| {
        graph.cast_mut().add(len).write(0);
        right
    });
}

#[test]
fn each_fault_of_edition_2_is_seen() {
    let zero = "our complete's work area is not all zero";
    let faults = [
        (
            with(|calls| calls.check = wide_fault::one_more_atom),
            "our check: (0, 0)",
        ),
        (
            with(|calls| calls.check = wide_fault::one_more_entry),
            "our check: (0, 0)",
        ),
        (
            with(|calls| calls.check = wide_fault::place),
            "our check: (4, 4464)",
        ),
        (
            with(|calls| calls.needed = wide_fault::four_fewer),
            "with wrong lengths, our needed: (0, 0)",
        ),
        (
            with(|calls| calls.needed = wide_fault::entries_not_counted),
            "with wrong lengths, our needed: (0, 1)",
        ),
        (
            with(|calls| calls.needed = wide_fault::edition_1s_area),
            "with wrong lengths, our needed: (0, 0)",
        ),
        (
            with(|calls| calls.needed = wide_fault::entries_refused),
            "our needed: (11, 0)",
        ),
        (
            with(|calls| calls.prepare = wide_fault::upper_atoms),
            "our prepare's output",
        ),
        (
            with(|calls| calls.complete = wide_fault::upper_bits),
            "our complete's output",
        ),
        (with(|calls| calls.complete = wide_fault::last_words), zero),
        (
            with(|calls| calls.complete = wide_fault::above_edition_1s),
            zero,
        ),
        (
            with(|calls| calls.complete = wide_fault::after_the_area),
            zero,
        ),
        (
            with(|calls| calls.work_words = Some(wide_fault::no_one)),
            "our work_words: 0",
        ),
        (
            with(|calls| calls.work_words = Some(wide_fault::no_entries)),
            "our work_words: 112, document 120",
        ),
        (
            with(|calls| calls.work_words = Some(wide_fault::of_refused)),
            "our work_words: 64, document 0",
        ),
        (
            with(|calls| calls.work_words = Some(wide_fault::in_16_bits)),
            "our work_words: ",
        ),
        (
            with(|calls| calls.work_words = Some(wide_fault::graph_written)),
            "our work_words wrote to the graph",
        ),
    ];
    seen(&faults, &wide());
}
