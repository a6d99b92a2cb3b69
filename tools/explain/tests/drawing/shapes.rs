//! Points, rectangles and outlines, and whether they meet.

pub type Point = (f64, f64);
pub type Outline = Vec<Point>;

/// A rectangle by its upper left and its lower right corner.
#[derive(Clone, Copy, Debug)]
pub struct Area {
    pub low: Point,
    pub high: Point,
}

impl Area {
    pub fn around(points: impl IntoIterator<Item = Point>) -> Area {
        let none = Area {
            low: (f64::INFINITY, f64::INFINITY),
            high: (f64::NEG_INFINITY, f64::NEG_INFINITY),
        };
        points.into_iter().fold(none, |area, (x, y)| Area {
            low: (area.low.0.min(x), area.low.1.min(y)),
            high: (area.high.0.max(x), area.high.1.max(y)),
        })
    }

    pub fn corners(&self) -> Outline {
        let (low, high) = (self.low, self.high);
        vec![low, (high.0, low.1), high, (low.0, high.1)]
    }

    pub fn overlaps(&self, other: &Area) -> bool {
        self.low.0 < other.high.0
            && other.low.0 < self.high.0
            && self.low.1 < other.high.1
            && other.low.1 < self.high.1
    }

    /// The same, with the edges.
    pub fn touches(&self, other: &Area) -> bool {
        self.low.0 <= other.high.0
            && other.low.0 <= self.high.0
            && self.low.1 <= other.high.1
            && other.low.1 <= self.high.1
    }

    pub fn holds(&self, (x, y): Point) -> bool {
        self.low.0 <= x && x <= self.high.0 && self.low.1 <= y && y <= self.high.1
    }

    /// Does a line meet the rectangle?
    pub fn meets(&self, (from, to): (Point, Point)) -> bool {
        let sides = sides(&self.corners());
        self.holds(from) || self.holds(to) || sides.iter().any(|&side| cross(side, (from, to)))
    }

    /// How far a point is from the rectangle, 0 if it lies in it.
    pub fn distance(&self, (x, y): Point) -> f64 {
        let across = (self.low.0 - x).max(x - self.high.0).max(0.0);
        let down = (self.low.1 - y).max(y - self.high.1).max(0.0);
        across.hypot(down)
    }
}

pub fn sides(outline: &[Point]) -> Vec<(Point, Point)> {
    let next = outline.iter().cycle().skip(1);
    outline.iter().copied().zip(next.copied()).collect()
}

/// On which side of a line a point lies.
fn side((from, to): (Point, Point), point: Point) -> f64 {
    (to.0 - from.0) * (point.1 - from.1) - (to.1 - from.1) * (point.0 - from.0)
}

/// Do two lines meet?
fn cross(one: (Point, Point), other: (Point, Point)) -> bool {
    let apart =
        |one: (Point, Point), other: (Point, Point)| side(one, other.0) * side(one, other.1) > 0.0;
    let (area, other_area) = (
        Area::around([one.0, one.1]),
        Area::around([other.0, other.1]),
    );
    !apart(one, other) && !apart(other, one) && area.touches(&other_area)
}

/// Does a point lie within an outline? A ray from it crosses the outline an odd number of times.
pub fn holds(outline: &[Point], (x, y): Point) -> bool {
    let crossed = |((x1, y1), (x2, y2)): &(Point, Point)| {
        (*y1 > y) != (*y2 > y) && x < x1 + (y - y1) / (y2 - y1) * (x2 - x1)
    };
    let count = sides(outline).iter().filter(|it| crossed(it)).count();
    count % 2 == 1
}

/// How far a point is from the line of an outline.
pub fn edge_distance(outline: &[Point], point: Point) -> f64 {
    let from_side = |(from, to): &(Point, Point)| {
        let (dx, dy) = (to.0 - from.0, to.1 - from.1);
        let length = (dx * dx + dy * dy).max(1e-9);
        let share = ((point.0 - from.0) * dx + (point.1 - from.1) * dy) / length;
        let share = share.clamp(0.0, 1.0);
        (from.0 + share * dx - point.0).hypot(from.1 + share * dy - point.1)
    };
    let distances = sides(outline);
    distances
        .iter()
        .map(from_side)
        .fold(f64::INFINITY, f64::min)
}

/// A point of the curve from the first to the last of four points that bends to the two between.
pub fn on_curve(points: &[Point], share: f64) -> Point {
    let between = |one: Point, other: Point| {
        let way = (other.0 - one.0, other.1 - one.1);
        (one.0 + share * way.0, one.1 + share * way.1)
    };
    let mut points = points.to_vec();
    while points.len() > 1 {
        points = points.windows(2).map(|it| between(it[0], it[1])).collect();
    }
    points[0]
}
