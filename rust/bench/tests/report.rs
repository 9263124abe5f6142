//! Bars, tables and plot from figures set by hand.

use bench::branches::{CUTS, Searched};
use bench::caches::Cache;
use bench::inputs::{SIZES, WIDE_SIZES};
use bench::measure::{CHECK, EDITION_1, Measured, Other, PLAIN, THEORY};
use bench::report::Bar;
use bench::sides::Call;
use bench::{plot, report};

/// Every ratio 0.75 and every vertex and edge 10 ns.
fn figures() -> Vec<Measured> {
    of(&SIZES, 3, [0.7, 0.75, 0.8])
}

/// The same of edition 2 by edition 1, every ratio 1.25.
fn edition_figures() -> Vec<Measured> {
    of(&SIZES, 1, [1.2, 1.25, 1.3])
}

/// The same of the large graphs, every ratio 0.65.
fn scale_figures() -> Vec<Measured> {
    of(&WIDE_SIZES, 3, [0.6, 0.65, 0.7])
}

fn of(sizes: &[usize], others: usize, ratios: [f64; 3]) -> Vec<Measured> {
    let mut all = Vec::new();
    for &size in sizes {
        for loops in [false, true] {
            for call in Call::ALL {
                let parts = 10.0 * size as f64;
                all.push(Measured {
                    size,
                    loops,
                    call,
                    ours: 10.0 * parts,
                    others: (0..others)
                        .map(|_| Other {
                            best: 20.0 * parts,
                            ratios,
                        })
                        .collect(),
                    parts,
                });
            }
        }
    }
    all
}

fn pick(all: &mut [Measured], size: usize, loops: bool, call: Call) -> &mut Measured {
    let wanted = |cell: &&mut Measured| (cell.size, cell.loops, cell.call) == (size, loops, call);
    all.iter_mut().find(wanted).expect("measured")
}

/// What does not hold.
fn broken(bars: Vec<Bar>) -> Vec<String> {
    let bars = bars.into_iter();
    bars.filter(|bar| !bar.holds())
        .map(|bar| bar.what)
        .collect()
}

#[test]
fn a_bar_is_broken_by_its_own_figure_alone() {
    assert_eq!(report::bars(&figures()).len(), 8 + 8 + 2 + 4);
    assert_eq!(broken(report::bars(&figures())), [""; 0]);
    let with = |size, loops, call, ratio| {
        let mut all = figures();
        pick(&mut all, size, loops, call).others[THEORY].ratios[1] = ratio;
        broken(report::bars(&all))
    };
    assert_eq!(with(16, false, Call::LoopTest, 1.0), [""; 0]);
    assert_eq!(
        with(16, false, Call::LoopTest, 1.01),
        ["loop test at 16 without loops: ratio"]
    );
    assert_eq!(with(256, true, Call::Pass, 0.8), [""; 0]);
    assert_eq!(
        with(256, true, Call::Pass, 0.81),
        ["pass at 256 with loops: ratio"]
    );
    assert_eq!(with(256, true, Call::Check, 9.0), [""; 0]);
    assert_eq!(
        with(1_024, true, Call::Check, 1.51),
        ["check at 1,024 with loops: ratio"]
    );
    assert_eq!(with(1_024, true, Call::Preparation, 9.0), [""; 0]);
}

#[test]
fn loop_test_and_pass_may_not_grow_with_the_graph() {
    let mut all = figures();
    pick(&mut all, 1_024, false, Call::LoopTest).ours *= 1.6;
    pick(&mut all, 1_024, true, Call::Pass).ours *= 1.6;
    assert_eq!(
        broken(report::bars(&all)),
        [
            "loop test at 1,024 without loops: time a vertex and edge by that at 64",
            "pass at 1,024 with loops: time a vertex and edge by that at 64"
        ]
    );
}

#[test]
fn edition_2_is_held_to_edition_1_at_its_largest() {
    let bars = report::edition_bars;
    assert_eq!(bars(&edition_figures()).len(), 8);
    assert_eq!(broken(bars(&edition_figures())), [""; 0]);
    let mut all = edition_figures();
    pick(&mut all, 256, false, Call::Pass).others[EDITION_1].ratios[1] = 9.0;
    pick(&mut all, 1_024, true, Call::Check).others[EDITION_1].ratios[1] = 1.31;
    assert_eq!(
        broken(bars(&all)),
        ["check at 1,024 with loops: edition 2 by edition 1"]
    );
}

#[test]
fn the_check_with_links_in_any_order() {
    let mut checks = edition_figures();
    checks.retain(|cell| cell.call == Call::Check && !cell.loops);
    let mut editions = [(1, checks)];
    assert_eq!(report::any_order(&editions).lines().count(), 2 + 4);
    let bars = report::any_order_bars;
    assert_eq!(
        (bars(&editions).len(), broken(bars(&editions)).len()),
        (1, 0)
    );
    pick(&mut editions[0].1, 256, false, Call::Check).others[PLAIN].ratios[1] = 9.0;
    pick(&mut editions[0].1, 1_024, false, Call::Check).others[PLAIN].ratios[1] = 1.51;
    assert_eq!(
        broken(bars(&editions)),
        ["check of edition 1 at 1,024, links in any order: ratio"]
    );
}

#[test]
fn equal_graphs_are_held_to_one_check() {
    let checks = || {
        let mut checks = edition_figures();
        checks.retain(|cell| cell.call == Call::Check && !cell.loops);
        checks
    };
    let mut each = [checks(), checks(), checks()];
    let table = report::pairs(&each);
    let columns = |row: &str| row.matches('|').count();
    assert!(table.lines().all(|row| columns(row) == 2 + 2 * 3));
    assert_eq!(table.lines().count(), 2 + 4);
    let bars = report::pair_bars;
    assert_eq!((bars(&each).len(), broken(bars(&each)).len()), (3, 0));
    pick(&mut each[0], 256, false, Call::Check).others[CHECK].ratios[1] = 9.0;
    pick(&mut each[2], 1_024, false, Call::Check).others[CHECK].ratios[1] = 2.51;
    assert_eq!(
        broken(bars(&each)),
        ["equal graphs at 1,024, both in any order: checks"]
    );
}

#[test]
fn large_graphs_are_held_to_the_rust_and_to_each_other() {
    let bars = report::scale_bars;
    assert_eq!(bars(&scale_figures()).len(), 10 + 8);
    assert_eq!(broken(bars(&scale_figures())), [""; 0]);
    let mut all = scale_figures();
    pick(&mut all, 65_536, false, Call::Pass).others[THEORY].ratios[1] = 0.71;
    pick(&mut all, 65_536, false, Call::LoopTest).others[THEORY].ratios[1] = 9.0;
    pick(&mut all, 4_096, true, Call::Check).ours *= 4.1;
    pick(&mut all, 262_144, true, Call::Preparation).ours *= 4.0;
    assert_eq!(
        broken(bars(&all)),
        [
            "wide pass at 65,536 without loops: ratio",
            "wide check with loops: most time a vertex and edge by least"
        ]
    );
}

#[test]
fn a_row_for_each_input() {
    let table = report::times(&figures(), THEORY);
    let rows: Vec<&str> = table.lines().collect();
    assert_eq!(rows.len(), 2 + 8);
    let columns = |row: &str| row.matches('|').count();
    assert!(rows.iter().all(|row| columns(row) == columns(rows[0])));
    let cell = "102.40 | 0.75 (0.70 to 0.80) |";
    assert_eq!(rows[9], format!("| 1,024 | yes | {}", [cell; 4].join(" ")));
    for other in [report::parts(&figures()), report::befores(&figures())] {
        let first = other.lines().next().expect("a first line");
        assert!(other.lines().all(|row| columns(row) == columns(first)));
    }
}

#[test]
fn a_line_for_each_call_and_side() {
    let svg = plot::svg(&figures());
    let lines: Vec<&str> = svg.lines().filter(|l| l.starts_with("<polyline")).collect();
    assert_eq!(lines.len(), 2 * 4 * 2);
    assert!(lines.iter().all(|line| line.matches(',').count() == 4));
    assert!(!svg.contains("NaN") && !svg.contains("inf"));
}

#[test]
fn the_ends_of_the_caches_are_marked() {
    let cache = |level, kibi: usize| Cache {
        level,
        bytes: 1_024 * kibi,
    };
    let caches = [cache(2, 1_024), cache(3, 32_768)];
    let svg = plot::wide(&scale_figures(), &caches);
    for mark in [">L2, 1024 KiB<", ">L3, 32768 KiB<"] {
        assert_eq!(svg.matches(mark).count(), 2);
    }
    assert!(!svg.contains("NaN") && !svg.contains("inf"));
    assert_eq!(
        report::caches(&caches),
        "graph and work area are as large as L2 (1,024 KiB) at 2,818 atoms\n\
         graph and work area are as large as L3 (32,768 KiB) at 90,200 atoms\n"
    );
}

/// A later pair takes 0.04 of a lone pass and 0.6 of the Rust's, 64 pairs 0.2 of 64
/// lone calls.
fn branch_figures() -> Vec<Searched> {
    let around = |ratio: f64| [0.9 * ratio, ratio, 1.1 * ratio];
    let mut all = Vec::new();
    for size in SIZES {
        for (loops, cuts) in [false, true].into_iter().flat_map(|l| CUTS.map(|c| (l, c))) {
            all.push(Searched {
                size,
                loops,
                cuts,
                lone: 100.0 * size as f64,
                pair: 20.0 * size as f64,
                later: 4.0 * size as f64,
                theirs: 4.0 * size as f64 / 0.6,
                one: around(1.1),
                two: around(1.2),
                by_lone: around(0.04),
                by_theirs: around(0.6),
                all: around(0.2),
            });
        }
    }
    all
}

#[test]
fn branches_are_held_to_lone_passes_and_to_the_rust() {
    let all = branch_figures();
    assert_eq!(report::branch_bars(&all).len(), 12 * 2 + 12 * 3);
    assert_eq!(broken(report::branch_bars(&all)), [""; 0]);
    let with = |change: fn(&mut Searched), loops: bool| {
        let mut all = branch_figures();
        let wanted = |cell: &&mut Searched| (cell.size, cell.loops, cell.cuts) == (64, loops, 5);
        change(all.iter_mut().find(wanted).expect("measured"));
        broken(report::branch_bars(&all))
    };
    let by_lone = |cell: &mut Searched| cell.by_lone[1] = 0.06;
    assert_eq!(with(by_lone, true), [""; 0]);
    assert_eq!(
        with(by_lone, false),
        ["branch at 64 without loops, 5 % cut: later pair by lone pass"]
    );
    assert_eq!(
        with(|cell| cell.by_lone[1] = 0.21, true),
        ["branch at 64 with loops, 5 % cut: later pair by lone pass"]
    );
    let by_theirs = |cell: &mut Searched| cell.by_theirs[1] = 0.71;
    assert_eq!(with(by_theirs, false), [""; 0]);
    assert_eq!(
        with(by_theirs, true),
        ["branch at 64 with loops, 5 % cut: later pair by the original's"]
    );
    assert_eq!(
        with(|cell| cell.all[1] = 0.26, false),
        ["branch at 64 without loops, 5 % cut: 64 pairs by 64 lone calls"]
    );
}

#[test]
fn branches_in_table_and_plot() {
    let all = branch_figures();
    let table = report::branches(&all);
    let columns = |row: &str| row.matches('|').count();
    assert_eq!(table.lines().count(), 2 + all.len());
    assert!(table.lines().all(|row| columns(row) == 12));
    assert!(table.contains("| 0.040 (0.036 to 0.044) |") && table.contains("| 1,024 | yes | 30 |"));
    let svg = plot::branch(&all, CUTS[1]);
    assert_eq!(svg.matches("<polyline").count(), 2 * 4);
    assert_eq!(svg.matches("<circle").count(), 2 * 4 * SIZES.len());
    assert!(!svg.contains("NaN") && !svg.contains("inf"));
}
