//! What the signs of the network mean.

use gasplan_text::model::{COMBINED, Case, INNER, SINK, SOURCE};
use gasplan_text::words::ARC_KINDS;

use super::canvas::Canvas;
use super::font::PLAIN;
use super::look;
use super::point::{Point, at};

const ROW: f64 = 30.0;
const BETWEEN: f64 = 26.0;
/// Length of the piece of an arc, and radius of the node, beside their names.
const LINE: f64 = 44.0;
const NODE: f64 = 8.0;

const UNITS: &str = "p in mbar, d and flows in g/s; a pipe's flow at its from end → at its to end";

/// Rows of signs with their names, which are as wide as the picture at most.
struct Rows<'a> {
    canvas: &'a mut Canvas,
    left: f64,
    right: f64,
    at: Point,
}

/// Draws the signs of the kinds that the case has, and gives the height that they take.
pub fn draw(canvas: &mut Canvas, case: &Case, corner: Point, width: f64) -> f64 {
    let mut rows = Rows {
        canvas,
        left: corner.x,
        right: corner.x + width,
        at: corner.plus(at(0.0, ROW / 2.0)),
    };
    for (kind, name) in (0..).zip(ARC_KINDS) {
        if case.arcs.iter().all(|arc| arc.kind != kind) {
            continue;
        }
        match kind {
            COMBINED => {
                rows.arc(kind, 3, "combined, compressing");
                rows.arc(kind, 1, "combined, regulating");
            }
            _ => rows.arc(kind, 0, name),
        }
    }
    rows.end();
    for (name, kind) in [("inner node", INNER), ("source", SOURCE), ("sink", SINK)] {
        rows.node(kind, name);
    }
    rows.text(0.0, UNITS);
    rows.end();
    rows.at.y - ROW / 2.0 - corner.y
}

impl Rows<'_> {
    fn arc(&mut self, kind: i64, setting: i64, name: &str) {
        let start = self.room(LINE + 8.0, name);
        let (colour, width, dashes) = look::stroke(kind);
        let look =
            format!("stroke=\"{colour}\" stroke-width=\"{width}\" stroke-dasharray=\"{dashes}\"");
        self.canvas.line(start, start.plus(at(LINE, 0.0)), &look);
        let Point { x, y } = start.plus(at(LINE / 2.0, 0.0));
        let sign = look::sign(kind, setting);
        let place = format!("transform=\"translate({x:.1},{y:.1})\"");
        self.canvas.element("path", &format!("{place} {sign}"));
        self.text(LINE + 8.0, name);
    }

    fn node(&mut self, kind: i64, name: &str) {
        let start = self.room(2.0 * NODE + 6.0, name);
        let (fill, edge) = look::node(kind);
        let look = format!("fill=\"{fill}\" stroke=\"{edge}\" stroke-width=\"2\"");
        self.canvas.circle(start.plus(at(NODE, 0.0)), NODE, &look);
        self.text(2.0 * NODE + 6.0, name);
    }

    /// The place of a sign; in the following row if it and its name do not fit into this one.
    fn room(&mut self, sign: f64, name: &str) -> Point {
        if self.at.x + sign + PLAIN.width(name) > self.right {
            self.end();
        }
        self.at
    }

    /// A text after a sign of this width.
    fn text(&mut self, sign: f64, name: &str) {
        let start = self.room(sign, name).plus(at(sign, 4.0));
        self.canvas.text(start, PLAIN, name);
        self.at.x += sign + PLAIN.width(name) + BETWEEN;
    }

    fn end(&mut self) {
        if self.at.x > self.left {
            self.at = at(self.left, self.at.y + ROW);
        }
    }
}
