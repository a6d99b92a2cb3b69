//! Rectangles: what texts, nodes and parts of the network take up.

use super::point::{Point, at};

/// A rectangle by its upper left and its lower right corner.
#[derive(Clone, Copy, Debug)]
pub struct Area {
    pub low: Point,
    pub high: Point,
}

impl Area {
    /// The smallest rectangle around points, around the origin if there are none.
    pub fn around(points: impl IntoIterator<Item = Point>) -> Area {
        let one = |point| Area::square(point, 0.0);
        let areas = points.into_iter().map(one);
        areas.reduce(Area::joined).unwrap_or(one(at(0.0, 0.0)))
    }

    pub fn square(middle: Point, half: f64) -> Area {
        Area::centred(middle, 2.0 * half, 2.0 * half)
    }

    pub fn centred(middle: Point, width: f64, height: f64) -> Area {
        let half = at(width / 2.0, height / 2.0);
        Area {
            low: middle.minus(half),
            high: middle.plus(half),
        }
    }

    pub fn joined(self, other: Area) -> Area {
        Area {
            low: at(self.low.x.min(other.low.x), self.low.y.min(other.low.y)),
            high: at(self.high.x.max(other.high.x), self.high.y.max(other.high.y)),
        }
    }

    pub fn grown(self, by: f64) -> Area {
        Area {
            low: self.low.minus(at(by, by)),
            high: self.high.plus(at(by, by)),
        }
    }

    pub fn widened(self, by: f64) -> Area {
        Area {
            low: self.low.minus(at(by, 0.0)),
            high: self.high.plus(at(by, 0.0)),
        }
    }

    pub fn moved(self, by: Point) -> Area {
        Area {
            low: self.low.plus(by),
            high: self.high.plus(by),
        }
    }

    pub fn size(self) -> Point {
        self.high.minus(self.low)
    }

    pub fn middle(self) -> Point {
        self.low.plus(self.high).times(0.5)
    }

    pub fn corners(self) -> [Point; 4] {
        let (low, high) = (self.low, self.high);
        [low, at(high.x, low.y), high, at(low.x, high.y)]
    }

    /// The point of the rectangle that is nearest to a point.
    pub fn nearest(self, point: Point) -> Point {
        let x = point.x.clamp(self.low.x, self.high.x);
        at(x, point.y.clamp(self.low.y, self.high.y))
    }

    /// The size of what two rectangles share.
    pub fn shared(self, other: Area) -> f64 {
        let across = self.high.x.min(other.high.x) - self.low.x.max(other.low.x);
        let down = self.high.y.min(other.high.y) - self.low.y.max(other.low.y);
        across.max(0.0) * down.max(0.0)
    }

    /// The length of the part of a line that lies in the rectangle.
    pub fn crossed(self, from: Point, to: Point) -> f64 {
        let way = to.minus(from);
        let (mut first, mut last) = (0.0_f64, 1.0_f64);
        let sides = [
            (way.x, self.low.x - from.x, self.high.x - from.x),
            (way.y, self.low.y - from.y, self.high.y - from.y),
        ];
        for (speed, low, high) in sides {
            if speed.abs() < 1e-9 {
                if low > 0.0 || high < 0.0 {
                    return 0.0;
                }
                continue;
            }
            let (one, other) = (low / speed, high / speed);
            first = first.max(one.min(other));
            last = last.min(one.max(other));
        }
        (last - first).max(0.0) * way.length()
    }
}
