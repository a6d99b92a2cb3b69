//! Convex outlines.

use super::point::{Point, at};

/// So many points stand for a circle.
const RING: usize = 16;

/// Points around a point.
pub fn ring(middle: Point, radius: f64) -> impl Iterator<Item = Point> {
    (0..RING).map(move |place| {
        let angle = std::f64::consts::TAU * place as f64 / RING as f64;
        middle.plus(at(angle.cos(), angle.sin()).times(radius))
    })
}

/// The corners of the smallest convex outline of points, in turn.
pub fn hull(mut points: Vec<Point>) -> Vec<Point> {
    points.sort_by(|one, other| one.x.total_cmp(&other.x).then(one.y.total_cmp(&other.y)));
    let mut below = half(points.iter());
    let mut above = half(points.iter().rev());
    below.pop();
    above.pop();
    below.extend(above);
    below
}

/// One side of an outline, by points in the order of the way along it.
fn half<'a>(points: impl Iterator<Item = &'a Point>) -> Vec<Point> {
    let mut side: Vec<Point> = Vec::new();
    for &point in points {
        while let [.., before, last] = side[..] {
            if last.minus(before).cross(point.minus(last)) > 0.0 {
                break;
            }
            side.pop();
        }
        side.push(point);
    }
    side
}

/// Each side of an outline, as the points that it goes from and to.
pub fn sides(outline: &[Point]) -> impl Iterator<Item = (Point, Point)> {
    let next = outline.iter().cycle().skip(1);
    outline.iter().copied().zip(next.copied())
}

/// Do two lines, each from a point to another, lie across each other?
pub fn are_across(one: (Point, Point), other: (Point, Point)) -> bool {
    let apart = |(from, to): (Point, Point), ends: (Point, Point)| {
        let side = |end: Point| to.minus(from).cross(end.minus(from));
        side(ends.0) * side(ends.1) < 0.0
    };
    apart(one, other) && apart(other, one)
}

/// Is the point within a convex outline?
pub fn holds(outline: &[Point], point: Point) -> bool {
    let turns: Vec<f64> = sides(outline)
        .map(|(from, to)| to.minus(from).cross(point.minus(from)))
        .collect();
    turns.iter().all(|&turn| turn > 0.0) || turns.iter().all(|&turn| turn < 0.0)
}

/// The least way by which the first of two convex outlines leaves the other; none if they are apart.
pub fn way_out(one: &[Point], other: &[Point]) -> Option<Point> {
    let mut least: Option<Point> = None;
    for (from, to) in sides(one).chain(sides(other)) {
        let axis = to.minus(from).unit().across();
        let (low, high) = reach(one, axis);
        let (other_low, other_high) = reach(other, axis);
        let (back, on) = (high - other_low, other_high - low);
        if back <= 0.0 || on <= 0.0 {
            return None;
        }
        let way = axis.times(if back < on { -back } else { on });
        if least.is_none_or(|least| way.length() < least.length()) {
            least = Some(way);
        }
    }
    least
}

/// How far an outline reaches along a direction.
fn reach(outline: &[Point], axis: Point) -> (f64, f64) {
    let along = outline.iter().map(|point| point.dot(axis));
    along.fold((f64::INFINITY, f64::NEG_INFINITY), |(low, high), it| {
        (low.min(it), high.max(it))
    })
}
