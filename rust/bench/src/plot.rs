//! Time against size, both axes logarithmic, as SVG pictures.

use std::fmt::Write as _;

use crate::branches::Searched;
use crate::caches::Cache;
use crate::measure::{Measured, THEORY};
use crate::report::filled;
use crate::sides::Call;

const COLOURS: [&str; 4] = ["#777777", "#1b6ca8", "#c1660a", "#9b1d5a"];
const WIDTH: f64 = 380.0;
const HEIGHT: f64 = 340.0;
const TOP: f64 = 60.0;
const LEFT: f64 = 70.0;
/// From the left edge of one panel to that of the next.
const STEP: f64 = 440.0;

/// What a picture is of.
struct Picture {
    title: &'static str,
    /// The unit of the times.
    unit: &'static str,
    /// The ends of the axis of sizes.
    sizes: [f64; 2],
    /// Sizes to be marked, and their names.
    marks: Vec<(f64, String)>,
    /// Under the picture.
    caption: &'static str,
}

/// A line in each panel, without loops and with.
struct Line {
    name: String,
    colour: &'static str,
    dashed: bool,
    /// Sizes and times.
    points: [Vec<(usize, f64)>; 2],
}

/// The axes of a panel: sizes in atoms, times in the picture's unit.
struct Axes {
    left: f64,
    sizes: [f64; 2],
    times: [f64; 2],
}

impl Axes {
    fn x(&self, size: f64) -> f64 {
        self.left + WIDTH * share(size, self.sizes)
    }

    fn y(&self, time: f64) -> f64 {
        TOP + HEIGHT * (1.0 - share(time, self.times))
    }
}

/// How far between the ends, on a logarithmic scale.
fn share(value: f64, [low, high]: [f64; 2]) -> f64 {
    (value / low).ln() / (high / low).ln()
}

/// A colour for each call, the Rust dashed; `unit` is nanoseconds for the times.
fn lines(measured: &[Measured], unit: impl Fn(&Measured) -> f64) -> Vec<Line> {
    let times = [
        |cell: &Measured| cell.ours,
        |cell: &Measured| cell.others[THEORY].best,
    ];
    let mut lines = Vec::new();
    for (call, colour) in Call::ALL.into_iter().zip(COLOURS) {
        for (side, time) in times.into_iter().enumerate() {
            let sides = match call {
                Call::Check => ["proved", "plain Rust"],
                _ => ["proved", "the Rust"],
            };
            lines.push(Line {
                name: format!("{}, {}", call.name(), sides[side]),
                colour,
                dashed: side == 1,
                points: [false, true].map(|loops| {
                    let of = |cell: &&Measured| (cell.loops, cell.call) == (loops, call);
                    let cells = measured.iter().filter(of);
                    cells
                        .map(|cell| (cell.size, time(cell) / unit(cell)))
                        .collect()
                }),
            });
        }
    }
    lines
}

/// Edition 1: microseconds a call.
pub fn svg(measured: &[Measured]) -> String {
    let picture = Picture {
        title: "Time of a call against the size of the graph",
        unit: "microseconds a call",
        sizes: [12.0, 1_400.0],
        marks: vec![],
        caption: "",
    };
    picture.svg(&lines(measured, |_| 1_000.0))
}

/// Edition 2: nanoseconds a vertex and edge, with the ends of the caches.
pub fn wide(measured: &[Measured], caches: &[Cache]) -> String {
    let mark = |&cache: &Cache| {
        let (level, kibi) = (cache.level, cache.bytes / 1_024);
        (filled(cache), format!("L{level}, {kibi} KiB"))
    };
    let marks: Vec<(f64, String)> = caches.iter().map(mark).collect();
    let picture = Picture {
        title: "Edition 2: time a vertex and edge against the size of the graph",
        unit: "nanoseconds a vertex and edge",
        sizes: [768.0, 350_000.0],
        caption: if marks.is_empty() {
            ""
        } else {
            "dotted: where our graph and work area are together as large as a cache of the machine"
        },
        marks,
    };
    picture.svg(&lines(measured, |cell| cell.parts))
}

/// Search branches with this share of cuts: microseconds a pair.
pub fn branch(measured: &[Searched], cuts: usize) -> String {
    let line = |name: &str, colour: usize, dashed: bool, time: fn(&Searched) -> f64| Line {
        name: name.into(),
        colour: COLOURS[colour],
        dashed,
        points: [false, true].map(|loops| {
            let of = |cell: &&Searched| (cell.loops, cell.cuts) == (loops, cuts);
            let cells = measured.iter().filter(of);
            cells
                .map(|cell| (cell.size, time(cell) / 1_000.0))
                .collect()
        }),
    };
    let picture = Picture {
        title: "Time of a pair of masks against the size of the graph",
        unit: "microseconds a pair",
        sizes: [12.0, 1_400.0],
        marks: vec![],
        caption: "64 pairs, 5 of 100 nodes and atoms cut; a later pair is one after the second",
    };
    picture.svg(&[
        line("lone pass", 3, false, |cell| cell.lone),
        line("one of 64 pairs", 1, false, |cell| cell.pair),
        line("later pair", 2, false, |cell| cell.later),
        line("the Rust\u{2019}s later pass", 2, true, |cell| cell.theirs),
    ])
}

impl Picture {
    /// Two panels, without loops and with.
    fn svg(&self, lines: &[Line]) -> String {
        let points = |line: &Line| line.points.concat();
        let all = || lines.iter().flat_map(points).map(|(_, time)| time);
        let low = all().fold(f64::INFINITY, f64::min);
        let high = all().fold(0.0, f64::max);
        let times = [
            10f64.powf(low.log10().floor()),
            10f64.powf(high.log10().ceil()),
        ];
        let mut svg = format!(
            "<svg xmlns=\"http://www.w3.org/2000/svg\" viewBox=\"0 0 920 540\" \
             font-family=\"sans-serif\" font-size=\"13\">\n\
             <rect width=\"920\" height=\"540\" fill=\"white\"/>\n\
             <text x=\"460\" y=\"24\" text-anchor=\"middle\" font-size=\"16\">\
             {}</text>\n",
            self.title
        );
        for (panel, loops) in [false, true].into_iter().enumerate() {
            let axes = Axes {
                left: LEFT + STEP * panel as f64,
                sizes: self.sizes,
                times,
            };
            let sizes = lines[0].points[panel].iter().map(|&(size, _)| size);
            self.frame(&mut svg, &axes, sizes, loops);
            for drawn in lines {
                let points = drawn.points[panel].iter().copied();
                line(&mut svg, &axes, drawn.colour, drawn.dashed, points);
            }
        }
        legend(&mut svg, lines);
        if !self.caption.is_empty() {
            let _ = writeln!(
                svg,
                "<text x=\"460\" y=\"530\" text-anchor=\"middle\" fill=\"#555555\">{}</text>",
                self.caption
            );
        }
        svg + "</svg>\n"
    }

    /// The frame with its ticks, their lines and names.
    fn frame(
        &self,
        svg: &mut String,
        axes: &Axes,
        sizes: impl Iterator<Item = usize>,
        loops: bool,
    ) {
        let (left, right, bottom) = (axes.left, axes.left + WIDTH, TOP + HEIGHT);
        let mut time = axes.times[0];
        while time <= axes.times[1] * 1.01 {
            let y = axes.y(time);
            let _ = writeln!(
                svg,
                "<path d=\"M{left:.1} {y:.1}H{right:.1}\" stroke=\"#dddddd\"/>\
                 <text x=\"{:.1}\" y=\"{:.1}\" text-anchor=\"end\">{time}</text>",
                left - 6.0,
                y + 4.0
            );
            time *= 10.0;
        }
        for size in sizes {
            let x = axes.x(size as f64);
            let _ = writeln!(
                svg,
                "<path d=\"M{x:.1} {TOP}V{bottom}\" stroke=\"#dddddd\"/>\
                 <text x=\"{x:.1}\" y=\"{:.1}\" text-anchor=\"middle\">{size}</text>",
                bottom + 18.0
            );
        }
        for (size, name) in &self.marks {
            let x = axes.x(*size);
            let _ = writeln!(
                svg,
                "<path d=\"M{x:.1} {TOP}V{bottom}\" stroke=\"#555555\" stroke-dasharray=\"1 3\"/>\
                 <text x=\"{:.1}\" y=\"{:.1}\" font-size=\"11\" fill=\"#555555\">{name}</text>",
                x + 4.0,
                TOP + 14.0
            );
        }
        let title = if loops { "with loops" } else { "without loops" };
        let middle = (left + right) / 2.0;
        let _ = writeln!(
            svg,
            "<rect x=\"{left}\" y=\"{TOP}\" width=\"{WIDTH}\" height=\"{HEIGHT}\" fill=\"none\" stroke=\"black\"/>\n\
             <text x=\"{middle}\" y=\"{:.1}\" text-anchor=\"middle\">{title}</text>\n\
             <text x=\"{middle}\" y=\"{:.1}\" text-anchor=\"middle\">atoms = nodes = producers</text>",
            TOP - 10.0,
            bottom + 38.0
        );
        if !loops {
            let (x, y) = (left - 44.0, TOP + HEIGHT / 2.0);
            let _ = writeln!(
                svg,
                "<text x=\"{x}\" y=\"{y}\" text-anchor=\"middle\" transform=\"rotate(-90 {x} {y})\">{}</text>",
                self.unit
            );
        }
    }
}

fn style(colour: &str, dashed: bool) -> String {
    let dashes = if dashed {
        " stroke-dasharray=\"6 4\""
    } else {
        ""
    };
    format!("fill=\"none\" stroke=\"{colour}\" stroke-width=\"2\"{dashes}")
}

fn line(
    svg: &mut String,
    axes: &Axes,
    colour: &str,
    dashed: bool,
    points: impl Iterator<Item = (usize, f64)>,
) {
    let placed: Vec<(f64, f64)> = points
        .map(|(size, time)| (axes.x(size as f64), axes.y(time)))
        .collect();
    let path: Vec<String> = placed
        .iter()
        .map(|(x, y)| format!("{x:.1},{y:.1}"))
        .collect();
    let _ = writeln!(
        svg,
        "<polyline points=\"{}\" {}/>",
        path.join(" "),
        style(colour, dashed)
    );
    let fill = if dashed { "white" } else { colour };
    for (x, y) in placed {
        let _ = writeln!(
            svg,
            "<circle cx=\"{x:.1}\" cy=\"{y:.1}\" r=\"3.5\" fill=\"{fill}\" stroke=\"{colour}\"/>"
        );
    }
}

/// Under the panels: two lines a column.
fn legend(svg: &mut String, lines: &[Line]) {
    for (number, line) in lines.iter().enumerate() {
        let (column, row) = (number / 2, number % 2);
        let (x, y) = (LEFT + 210.0 * column as f64, 474.0 + 26.0 * row as f64);
        let _ = writeln!(
            svg,
            "<path d=\"M{x} {y}h36\" {}/><text x=\"{}\" y=\"{}\">{}</text>",
            style(line.colour, line.dashed),
            x + 44.0,
            y + 4.0,
            line.name
        );
    }
}
