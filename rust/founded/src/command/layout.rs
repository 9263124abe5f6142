//! Where each state of a picture stands: the states of a circle on a ring, the parts in columns, each to the right of those that it leans on.

use std::collections::{BTreeSet, HashMap};

use super::Report;
use super::arrows::Arrow;

/// The width of a letter of a state's name.
const LETTER: f64 = 7.9;
/// The height of a state's box.
pub const BOX: f64 = 32.0;
/// The room between a part's border and its states, where arrows bow out and labels stand: at the sides, and above and below.
const SIDE: f64 = 56.0;
const EDGE: f64 = 36.0;
/// The room more above the states where one has an arrow to itself.
const LOOP: f64 = 24.0;
/// The room above a part's states for its title.
const TITLE: f64 = 22.0;
const GAP: f64 = 56.0;

#[derive(Clone, Copy, Debug, Default, PartialEq)]
pub struct Point {
    pub x: f64,
    pub y: f64,
}

/// A state's box, by its middle.
#[derive(Clone, Copy, Debug)]
pub struct Place {
    pub middle: Point,
    pub width: f64,
}

/// A part's border.
#[derive(Clone, Copy, Debug, Default)]
pub struct Panel {
    pub corner: Point,
    pub width: f64,
    pub height: f64,
}

/// A picture's states and parts.
#[derive(Debug, Default)]
pub struct Layout {
    pub places: HashMap<usize, Place>,
    pub panels: Vec<Panel>,
    pub width: f64,
    pub height: f64,
}

fn box_width(name: &str) -> f64 {
    name.chars().count() as f64 * LETTER + 26.0
}

/// The states of a part in an order in which many arrows lead from one to the next: a walk goes on to a state from which it can go on, to one with few ways on before others.
fn around(states: &[usize], arrows: &[Arrow]) -> Vec<usize> {
    let mut next: HashMap<usize, BTreeSet<usize>> = HashMap::new();
    for arrow in arrows.iter().filter(|arrow| arrow.inner) {
        next.entry(arrow.from).or_default().insert(arrow.to);
    }
    let none = BTreeSet::new();
    let after = |state: usize| next.get(&state).unwrap_or(&none);
    let (mut order, mut way) = (Vec::new(), Vec::new());
    let mut left: BTreeSet<usize> = states.iter().copied().collect();
    for &first in states {
        if left.remove(&first) {
            order.push(first);
            way.push(first);
        }
        while let Some(&state) = way.last() {
            let ways_on = |other: usize| after(other).intersection(&left).count();
            let others = after(state).intersection(&left).copied();
            let best = others.min_by_key(|&other| match ways_on(other) {
                0 => usize::MAX,
                ways => ways,
            });
            match best {
                Some(other) => {
                    left.remove(&other);
                    order.push(other);
                    way.push(other);
                }
                None => {
                    way.pop();
                }
            }
        }
    }
    order
}

/// The states of a part about the point 0 0, and the panel around them.
fn ring(report: &Report<'_>, states: &[usize], arrows: &[Arrow]) -> (Vec<(usize, Place)>, Panel) {
    let name = |state: usize| &report.program.states()[state];
    let widest = states
        .iter()
        .map(|&state| box_width(name(state)))
        .fold(0.0, f64::max);
    let order = around(states, arrows);
    let count = order.len() as f64;
    let step = std::f64::consts::TAU / count;
    let radius = match order.len() {
        1 => 0.0,
        2 => (widest + 120.0) / 2.0,
        _ => ((widest + 70.0) / (2.0 * (step / 2.0).sin())).max(80.0),
    };
    // Two stand side by side; of more the first stands at the top.
    let first = if order.len() == 2 {
        std::f64::consts::PI
    } else {
        -std::f64::consts::FRAC_PI_2
    };
    let place = |(at, &state): (usize, &usize)| {
        let (sin, cos) = (first + step * at as f64).sin_cos();
        let middle = Point {
            x: radius * cos,
            y: radius * sin,
        };
        let width = box_width(name(state));
        (state, Place { middle, width })
    };
    let places: Vec<(usize, Place)> = order.iter().enumerate().map(place).collect();
    let end = |far: fn(f64, f64) -> f64, of: &dyn Fn(&Place) -> f64| {
        places
            .iter()
            .map(|(_, place)| of(place))
            .reduce(far)
            .unwrap_or_default()
    };
    let itself = arrows.iter().any(|arrow| arrow.from == arrow.to);
    let above = TITLE + if itself { LOOP } else { 0.0 };
    let left = end(f64::min, &|place| place.middle.x - place.width / 2.0) - SIDE;
    let right = end(f64::max, &|place| place.middle.x + place.width / 2.0) + SIDE;
    let top = end(f64::min, &|place| place.middle.y - BOX / 2.0) - EDGE - above;
    let bottom = end(f64::max, &|place| place.middle.y + BOX / 2.0) + EDGE;
    let panel = Panel {
        corner: Point { x: left, y: top },
        width: right - left,
        height: bottom - top,
    };
    (places, panel)
}

/// How many parts lean on one another below each part.
fn depths(report: &Report<'_>) -> Vec<usize> {
    let mut depths: Vec<usize> = Vec::new();
    for part in &report.explanation.parts {
        let below = part.leans_on.iter().filter_map(|&other| depths.get(other));
        let depth = below.max().map_or(0, |below| below + 1);
        depths.push(depth);
    }
    depths
}

/// The parts in columns: those of a depth, and where these are many, several columns of them.
fn columns(report: &Report<'_>) -> Vec<Vec<usize>> {
    let depths = depths(report);
    let deepest = depths.iter().max().map_or(0, |deepest| deepest + 1);
    let mut by_depth = vec![Vec::new(); deepest];
    for (part, depth) in depths.into_iter().enumerate() {
        by_depth[depth].push(part);
    }
    let parted = |parts: &Vec<usize>| {
        let high = (parts.len() as f64).sqrt().ceil() as usize;
        let columns = parts.chunks(high.max(3)).map(<[usize]>::to_vec);
        columns.collect::<Vec<_>>()
    };
    by_depth.iter().flat_map(parted).collect()
}

/// The places of all missing states. `arrows` has those to the states of each part.
pub fn laid_out(report: &Report<'_>, arrows: &[Vec<Arrow>]) -> Layout {
    let parts = &report.explanation.parts;
    let rings = parts
        .iter()
        .zip(arrows)
        .map(|(part, arrows)| ring(report, &part.states, arrows));
    let rings: Vec<_> = rings.collect();
    let columns = columns(report);
    let high = |column: &Vec<usize>| {
        let panels = column.iter().map(|&part| rings[part].1.height);
        panels.sum::<f64>() + GAP * (column.len() as f64 - 1.0)
    };
    let height = columns.iter().map(high).fold(0.0, f64::max);
    let mut layout = Layout {
        panels: vec![Panel::default(); parts.len()],
        height,
        ..Layout::default()
    };
    let mut x = 0.0;
    for column in &columns {
        let wide = column
            .iter()
            .map(|&part| rings[part].1.width)
            .fold(0.0, f64::max);
        let mut y = (height - high(column)) / 2.0;
        for &part in column {
            let (places, panel) = &rings[part];
            let corner = Point {
                x: x + (wide - panel.width) / 2.0,
                y,
            };
            let (dx, dy) = (corner.x - panel.corner.x, corner.y - panel.corner.y);
            for &(state, place) in places {
                let middle = Point {
                    x: place.middle.x + dx,
                    y: place.middle.y + dy,
                };
                layout.places.insert(state, Place { middle, ..place });
            }
            layout.panels[part] = Panel { corner, ..*panel };
            y += panel.height + GAP;
        }
        x += wide + GAP;
    }
    layout.width = (x - GAP).max(0.0);
    layout
}
