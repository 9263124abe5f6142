//! Comparisons of two graphs with one fault each: the pairs must show it.

use compare::pairs::{self, ARCHIVE, CONTENTS, Compare, Pairs};

/// The words behind a pointer.
unsafe fn words<'a>(graph: *const u16, len: usize) -> &'a [u16] {
    unsafe { std::slice::from_raw_parts(graph, len) }
}

/// The archive's answer on words of our own.
fn answer(x: &[u16], y: &[u16]) -> u32 {
    unsafe { ARCHIVE(x.as_ptr(), x.len(), y.as_ptr(), y.len()) }
}

/// The number of nodes of both, if both are accepted and have as many.
fn nodes(x: &[u16], y: &[u16]) -> Option<usize> {
    (answer(x, y) <= 2 && x[1..4] == y[1..4]).then(|| usize::from(x[2]))
}

/// A comparison with a fault, on slices.
macro_rules! fault {
    ($name:ident($x:ident, $y:ident) $body:expr) => {
        unsafe extern "C" fn $name(
            graph: *const u16,
            graph_len: usize,
            other: *const u16,
            other_len: usize,
        ) -> u32 {
            let ($x, $y) = unsafe { (words(graph, graph_len), words(other, other_len)) };
            $body
        }
    };
}

fault!(turned(x, y) answer(y, x));

fault!(second_refused_first(x, y) match answer(y, y) {
    0 => answer(x, y),
    code => code,
});

fault!(same_words(x, y) match answer(x, y) {
    0 if x != y => 1,
    code => code,
});

fault!(links_counted(x, y) match answer(x, y) {
    0 if x.len() < y.len() => 1,
    0 if x.len() > y.len() => 2,
    code => code,
});

fault!(opaque_alike(x, y) {
    let alike = |words: &[u16]| {
        let mut words = words.to_vec();
        for n in 0..usize::from(words[2]) {
            if let kind @ (5 | 6) = &mut words[5 + 3 * n] {
                *kind = 4;
            }
        }
        words
    };
    if answer(x, y) <= 2 { answer(&alike(x), &alike(y)) } else { answer(x, y) }
});

fault!(kinds_first(x, y) {
    let differ = nodes(x, y).and_then(|n| (0..n).map(|n| 5 + 3 * n).find(|&at| x[at] != y[at]));
    differ.map_or_else(|| answer(x, y), |at| if x[at] < y[at] { 1 } else { 2 })
});

// The first head list decides by its length.
fault!(longer_first(x, y) {
    let list = |words: &[u16]| {
        let (n, p) = (usize::from(words[2]), usize::from(words[3]));
        let links = 5 + 3 * n + 2 * p;
        let mut link = usize::from(words[5 + 3 * n + 1]);
        let mut list = vec![];
        while link != 0 {
            list.push(words[links + 2 * (link - 1)]);
            link = usize::from(words[links + 2 * (link - 1) + 1]);
        }
        list
    };
    if nodes(x, y) == Some(0) && x[3] > 0 && x[5] == y[5] {
        let (here, there) = (list(x), list(y));
        if here.len() != there.len() && (here.starts_with(&there) || there.starts_with(&here)) {
            return 3 - answer(x, y);
        }
    }
    answer(x, y)
});

// Where all records are the same words, first links and all, lists are not looked at.
fault!(shared_tail(x, y) {
    let n = nodes(x, y).unwrap_or_default();
    let p = if answer(x, y) <= 2 && x[1..4] == y[1..4] { usize::from(x[3]) } else { 0 };
    let records = 5..5 + 3 * n + 2 * p;
    if p > 0 && answer(x, y) != 0 && x[records.clone()] == y[records] { 0 } else { answer(x, y) }
});

fault!(first_written(x, y) {
    let answer = answer(x, y);
    if answer == 2 {
        unsafe { x.as_ptr().cast_mut().write(7) };
    }
    answer
});

fault!(past_the_second(x, y) {
    let answer = answer(x, y);
    if answer == 1 {
        unsafe { y.as_ptr().cast_mut().add(y.len()).write(7) };
    }
    answer
});

#[test]
fn each_fault_is_seen() {
    let seen = |compare: Compare| {
        let tiny = pairs::contents(&CONTENTS, compare).err();
        let patterns = || pairs::patterns([1, 1, 1, 1], compare).err();
        let random = || pairs::graphs(1, 0, 500, compare).err();
        tiny.or_else(patterns)
            .or_else(random)
            .map(|found| found.what)
    };
    assert_eq!(seen(ARCHIVE), None);
    let faults: [(&str, Compare, &str); 10] = [
        ("turned", turned, "our compare: "),
        (
            "second refused first",
            second_refused_first,
            "our compare: ",
        ),
        ("same words", same_words, "our compare: (0, 1)"),
        ("links counted", links_counted, "our compare: "),
        ("opaque alike", opaque_alike, "our compare: (0, 0)"),
        ("kinds first", kinds_first, "our compare: "),
        ("longer first", longer_first, "our compare: "),
        ("shared tail", shared_tail, "our compare: (0, 0)"),
        ("first written", first_written, "wrote to the first graph"),
        (
            "past the second",
            past_the_second,
            "wrote to the second graph",
        ),
    ];
    for (name, compare, what) in faults {
        let said = seen(compare).expect(name);
        assert!(said.contains(what), "{name}: {said:?}");
    }
}

/// The graphs that docs/FORMAT.md works by hand.
#[test]
fn worked() {
    let heater = [1, 2, 2, 2, 2, 1, 0, 0, 1, 1, 0, 2, 1, 1, 2, 0, 0, 1, 0];
    let others: [(&[u16], u32); 6] = [
        (
            &[
                1, 2, 2, 2, 3, 1, 0, 0, 1, 1, 0, 2, 3, 1, 1, 1, 0, 9, 2, 0, 0,
            ],
            0,
        ),
        (
            &[
                1, 2, 2, 3, 2, 1, 0, 0, 1, 1, 0, 2, 1, 1, 2, 0, 1, 0, 0, 1, 0,
            ],
            1,
        ),
        (
            &[1, 2, 2, 2, 2, 4, 0, 0, 0, 0, 0, 2, 1, 1, 2, 0, 0, 1, 0],
            1,
        ),
        (
            &[1, 2, 2, 2, 2, 1, 0, 0, 0, 0, 0, 2, 1, 1, 2, 0, 0, 1, 0],
            2,
        ),
        (
            &[
                1, 2, 2, 2, 3, 1, 0, 0, 1, 1, 0, 2, 1, 1, 3, 0, 2, 0, 0, 1, 0,
            ],
            1,
        ),
        (
            &[1, 2, 2, 2, 2, 1, 0, 0, 1, 1, 0, 2, 1, 1, 2, 0, 0, 2, 0],
            8 << 16 | 1,
        ),
    ];
    let mut pairs = Pairs::new(ARCHIVE);
    for (other, said) in others {
        assert_eq!(answer(&heater, other), said);
        pairs.all(&heater, other).expect("as the papers have it");
    }
}
