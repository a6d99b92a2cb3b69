//! Rectangles beside each other within a width.

use super::area::Area;
use super::point::{Point, at};

/// How many widths are tried.
const WIDTHS: usize = 12;

/// Where the upper left corner of each rectangle goes, by its width and height, so that no two are over each
/// other: within the width, from the least to the most, that needs the least room.
pub fn packed(sizes: &[Point], least: f64, most: f64) -> Vec<Point> {
    let least = sizes.iter().map(|size| size.x).fold(least, f64::max);
    let tried = (0..=WIDTHS).map(|step| {
        let width = least + (most - least).max(0.0) * step as f64 / WIDTHS as f64;
        let corners = corners(sizes, width);
        let ends = corners
            .iter()
            .zip(sizes)
            .map(|(corner, size)| corner.plus(*size));
        // The picture is not narrower than the least width.
        let room = Area::around(ends.chain([at(0.0, 0.0), at(least, 0.0)])).size();
        (room.x * room.y, corners)
    });
    let best = tried.min_by(|(one, _), (other, _)| one.total_cmp(other));
    best.map_or(Vec::new(), |(_, corners)| corners)
}

/// The corners within a width.
fn corners(sizes: &[Point], width: f64) -> Vec<Point> {
    let mut order: Vec<usize> = (0..sizes.len()).collect();
    order.sort_by(|&one, &other| {
        sizes[other]
            .y
            .total_cmp(&sizes[one].y)
            .then(one.cmp(&other))
    });
    let mut corners = vec![at(0.0, 0.0); sizes.len()];
    let mut done: Vec<(Point, Point)> = Vec::new();
    for index in order {
        let corner = lowest(&done, sizes[index], width);
        corners[index] = corner;
        done.push((corner, corner.plus(sizes[index])));
    }
    corners
}

/// The highest free place, and the leftmost of these, that touches the left edge or others.
fn lowest(done: &[(Point, Point)], size: Point, width: f64) -> Point {
    let free = |corner: Point| {
        let end = corner.plus(size);
        let hits = |(low, high): &(Point, Point)| {
            corner.x < high.x && low.x < end.x && corner.y < high.y && low.y < end.y
        };
        (end.x <= width || corner.x == 0.0) && !done.iter().any(hits)
    };
    let xs = done.iter().map(|(_, high)| high.x).chain([0.0]);
    let ys: Vec<f64> = done.iter().map(|(_, high)| high.y).chain([0.0]).collect();
    let spots = xs.flat_map(|x| ys.iter().map(move |&y| at(x, y)));
    let better =
        |one: &Point, other: &Point| one.y.total_cmp(&other.y).then(one.x.total_cmp(&other.x));
    let found = spots.filter(|&spot| free(spot)).min_by(better);
    // Below everything there is always room.
    found.unwrap_or(at(0.0, ys.iter().copied().fold(0.0, f64::max)))
}
