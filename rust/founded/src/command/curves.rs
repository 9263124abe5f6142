//! The ways of a picture's arrows, and room for their labels.

use super::layout::{BOX, Place, Point};

/// An arrow's way as SVG has it, and the points at which its label may stand, the best first.
pub struct Curve {
    pub path: String,
    pub labels: Vec<Point>,
}

/// Where the way from a box's middle towards a point leaves the box, and a little further.
fn edge(place: Place, towards: Point, further: f64) -> Point {
    let (dx, dy) = (towards.x - place.middle.x, towards.y - place.middle.y);
    let length = dx.hypot(dy).max(1e-6);
    let (half_width, half_height) = (place.width / 2.0, BOX / 2.0);
    let out = (half_width / dx.abs().max(1e-6)).min(half_height / dy.abs().max(1e-6));
    let out = out + further / length;
    Point {
        x: place.middle.x + dx * out,
        y: place.middle.y + dy * out,
    }
}

/// From one state to another. Arrows between the same two bow out further, one by one; those to and fro bow to different sides.
pub fn between(from: Place, to: Place, nth: usize) -> Curve {
    let (a, b) = (from.middle, to.middle);
    let (dx, dy) = (b.x - a.x, b.y - a.y);
    let length = dx.hypot(dy).max(1e-6);
    let bow = 0.16 * length.min(260.0) + 16.0 + 26.0 * nth as f64;
    let bend = Point {
        x: f64::midpoint(a.x, b.x) + dy / length * bow,
        y: f64::midpoint(a.y, b.y) - dx / length * bow,
    };
    let (start, end) = (edge(from, bend, 1.0), edge(to, bend, 4.0));
    let path = format!(
        "M{:.1} {:.1} Q{:.1} {:.1} {:.1} {:.1}",
        start.x, start.y, bend.x, bend.y, end.x, end.y
    );
    let at = |t: f64| {
        let along = |start: f64, bend: f64, end: f64| {
            let s = 1.0 - t;
            s * s * start + 2.0 * s * t * bend + t * t * end
        };
        Point {
            x: along(start.x, bend.x, end.x),
            y: along(start.y, bend.y, end.y),
        }
    };
    let labels = [0.5, 0.4, 0.6, 0.3, 0.7, 0.22].map(at).to_vec();
    Curve { path, labels }
}

/// From a state to itself, above it.
pub fn itself(place: Place, nth: usize) -> Curve {
    let Point { x, y } = place.middle;
    let top = y - BOX / 2.0;
    let (near, far, up) = (10.0, 26.0 + 12.0 * nth as f64, 44.0 + 20.0 * nth as f64);
    let path = format!(
        "M{:.1} {:.1} C{:.1} {:.1} {:.1} {:.1} {:.1} {:.1}",
        x - near,
        top - 1.0,
        x - far,
        top - up,
        x + far,
        top - up,
        x + near,
        top - 4.0
    );
    let y = top - 0.75 * up - 2.0;
    let labels = vec![Point { x, y }];
    Curve { path, labels }
}

/// What stands in the picture already, by its middle and half of its width and height.
#[derive(Default)]
pub struct Taken(Vec<(Point, f64, f64)>);

impl Taken {
    /// Above so many things nobody looks for room: it would take long, and there is none.
    const MOST: usize = 1_500;

    pub fn take(&mut self, middle: Point, width: f64, height: f64) {
        self.0.push((middle, width / 2.0, height / 2.0));
    }

    fn is_free(&self, at: Point, width: f64, height: f64) -> bool {
        let apart = |&(middle, half_width, half_height): &(Point, f64, f64)| {
            (at.x - middle.x).abs() >= half_width + width / 2.0
                || (at.y - middle.y).abs() >= half_height + height / 2.0
        };
        self.0.len() > Self::MOST || self.0.iter().all(apart)
    }

    /// The first of these points that has room, or the first of all, which is taken.
    pub fn find(&mut self, points: &[Point], width: f64, height: f64) -> Point {
        let mut free = points.iter().filter(|&&at| self.is_free(at, width, height));
        let found = free.next().or(points.first()).copied().unwrap_or_default();
        self.take(found, width, height);
        found
    }
}
