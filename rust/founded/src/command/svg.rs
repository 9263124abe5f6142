//! The missing states drawn: each circle as a ring in a panel of its own, an arrow for each rule.

use std::collections::HashMap;

use super::Report;
use super::arrows::{self, Arrow, arrows_to};
use super::curves::{self, Taken};
use super::layout::{BOX, Panel, Place, Point, laid_out};
use super::text::circle_numbers;

/// The room around the picture, and for the line below it.
const BORDER: f64 = 24.0;
const CAPTION: f64 = 34.0;

const STYLE: &str = "\
text { font: 13px 'DejaVu Sans Mono', Menlo, Consolas, monospace; fill: #1f2328; }
.paper { fill: #ffffff; }
.panel { fill: #f6f8fa; stroke: #d1d9e0; }
.title { font-weight: bold; fill: #59636e; }
.state { fill: #fff8f0; stroke: #bc4c00; stroke-width: 1.6; }
.name { text-anchor: middle; }
.rule { fill: none; stroke: #59636e; stroke-width: 1.5; marker-end: url(#head); }
.leans { stroke-dasharray: 6 4; }
.under { fill: #f6f8fa; }
.line { font-size: 11px; text-anchor: middle; fill: #0550ae; }
.caption { font-size: 11px; fill: #59636e; }";

fn escaped(text: &str) -> String {
    let mut out = String::new();
    for c in text.chars() {
        match c {
            '&' => out.push_str("&amp;"),
            '<' => out.push_str("&lt;"),
            '>' => out.push_str("&gt;"),
            '"' => out.push_str("&quot;"),
            c if c.is_control() => out.push('\u{fffd}'),
            c => out.push(c),
        }
    }
    out
}

fn panel(panel: Panel, title: &str) -> String {
    let Panel {
        corner,
        width,
        height,
    } = panel;
    format!(
        "<rect class=\"panel\" x=\"{:.1}\" y=\"{:.1}\" width=\"{width:.1}\" height=\"{height:.1}\" rx=\"10\"/>\n\
         <text class=\"title\" x=\"{:.1}\" y=\"{:.1}\">{title}</text>\n",
        corner.x,
        corner.y,
        corner.x + 14.0,
        corner.y + 23.0
    )
}

fn state(place: Place, name: &str) -> String {
    let Place { middle, width } = place;
    format!(
        "<rect class=\"state\" x=\"{:.1}\" y=\"{:.1}\" width=\"{width:.1}\" height=\"{BOX:.1}\" rx=\"8\"/>\n\
         <text class=\"name\" x=\"{:.1}\" y=\"{:.1}\">{}</text>\n",
        middle.x - width / 2.0,
        middle.y - BOX / 2.0,
        middle.x,
        middle.y + 4.5,
        escaped(name)
    )
}

/// An arrow's way.
fn arrow(report: &Report<'_>, arrow: &Arrow, path: &str) -> String {
    let program = report.program;
    let class = if arrow.inner { "rule" } else { "rule leans" };
    let line = escaped(&program.line(&program.rules()[arrow.rule]));
    format!("<path class=\"{class}\" data-rule=\"{line}\" d=\"{path}\"/>\n")
}

/// A label where there is room for it.
fn label(text: &str, points: &[Point], taken: &mut Taken) -> String {
    const HIGH: f64 = 14.0;
    let wide = text.chars().count() as f64 * 6.7 + 6.0;
    let Point { x, y } = taken.find(points, wide, HIGH);
    format!(
        "<rect class=\"under\" x=\"{:.1}\" y=\"{:.1}\" width=\"{wide:.1}\" height=\"{HIGH}\" rx=\"4\"/>\n\
         <text class=\"line\" x=\"{x:.1}\" y=\"{:.1}\">{}</text>\n",
        x - wide / 2.0,
        y - HIGH / 2.0,
        y + 4.0,
        escaped(text)
    )
}

/// The arrows, and apart from them their labels, which are drawn above all of them.
fn drawn_arrows(
    report: &Report<'_>,
    arrows: &[Vec<Arrow>],
    places: &HashMap<usize, Place>,
) -> (String, String) {
    let (mut lines, mut labels) = (String::new(), String::new());
    let mut taken = Taken::default();
    for place in places.values() {
        taken.take(place.middle, place.width, BOX);
    }
    let mut between: HashMap<(usize, usize), usize> = HashMap::new();
    for one in arrows.iter().flatten() {
        let (Some(&from), Some(&to)) = (places.get(&one.from), places.get(&one.to)) else {
            continue;
        };
        let nth = between.entry((one.from, one.to)).or_default();
        let curve = if one.from == one.to {
            curves::itself(from, *nth)
        } else {
            curves::between(from, to, *nth)
        };
        *nth += 1;
        lines += &arrow(report, one, &curve.path);
        labels += &label(&arrows::label(report, one.rule), &curve.labels, &mut taken);
    }
    (lines, labels)
}

/// What stands below the picture.
fn caption(report: &Report<'_>) -> String {
    let explanation = report.explanation;
    if explanation.parts.is_empty() {
        return "nothing is missing".to_owned();
    }
    let leaning = explanation
        .parts
        .iter()
        .any(|part| !part.leans_on.is_empty());
    let dashed = if leaning {
        "; dashed: from another circle"
    } else {
        ""
    };
    let file = match report.program.sources() {
        [file] => format!(" of {}", file.name().rsplit('/').next().unwrap_or_default()),
        _ => String::new(),
    };
    format!("missing states{file}; an arrow: a rule that concludes the state it points to{dashed}")
}

/// The picture.
pub fn drawn(report: &Report<'_>) -> String {
    let explanation = report.explanation;
    let arrows = (0..explanation.parts.len()).map(|number| arrows_to(report, number));
    let arrows: Vec<Vec<Arrow>> = arrows.collect();
    let layout = laid_out(report, &arrows);
    let caption = caption(report);
    let inner = layout.width.max(caption.chars().count() as f64 * 6.7);
    let (width, height) = (inner + 2.0 * BORDER, layout.height + CAPTION + 2.0 * BORDER);

    let circles = circle_numbers(&explanation.parts);
    let panels = layout.panels.iter().zip(circles).map(|(&place, circle)| {
        let circle = circle.map(|circle| format!("circle {circle}"));
        panel(place, circle.as_deref().unwrap_or("on no circle"))
    });
    let panels: String = panels.collect();
    let (lines, labels) = drawn_arrows(report, &arrows, &layout.places);
    let states = explanation.missing.iter().filter_map(|number| {
        let name = &report.program.states()[*number];
        Some(state(*layout.places.get(number)?, name))
    });
    let states: String = states.collect();
    let shift = BORDER + (inner - layout.width) / 2.0;
    let below = height - BORDER - 2.0;
    format!(
        "<svg xmlns=\"http://www.w3.org/2000/svg\" width=\"{width:.0}\" height=\"{height:.0}\" viewBox=\"0 0 {width:.0} {height:.0}\">\n\
         <style>\n{STYLE}\n</style>\n\
         <defs><marker id=\"head\" viewBox=\"0 0 10 10\" refX=\"8\" refY=\"5\" markerWidth=\"8\" markerHeight=\"8\" orient=\"auto\">\
         <path d=\"M0 1 L9 5 L0 9 z\" fill=\"#59636e\"/></marker></defs>\n\
         <rect class=\"paper\" width=\"{width:.0}\" height=\"{height:.0}\"/>\n\
         <g transform=\"translate({shift:.1} {BORDER:.1})\">\n{panels}{lines}{states}{labels}</g>\n\
         <text class=\"caption\" x=\"{BORDER:.1}\" y=\"{below:.1}\">{}</text>\n\
         </svg>\n",
        escaped(&caption)
    )
}
