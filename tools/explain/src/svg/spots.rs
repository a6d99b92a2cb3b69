//! Where a text may stand at a node, at an arc or in a station.

use super::area::Area;
use super::bow::{Bow, NODE_RADIUS, SIGN};
use super::labels::Spot;
use super::point::{Point, at};

/// Pixels between a text and what it belongs to.
const GAP: f64 = 4.0;
/// What it costs to take a later one of spots at the same distance.
const LATER: f64 = 4.0;
/// How far from an arc a text may stand, and what that costs.
const AWAY: [(f64, f64); 5] = [
    (0.0, 0.0),
    (12.0, 70.0),
    (26.0, 170.0),
    (44.0, 330.0),
    (70.0, 600.0),
];

/// Where along an arc a text may stand, from its sign.
const OFF_SIGN: [f64; 7] = [0.0, -0.12, 0.12, -0.22, 0.22, -0.32, 0.32];

/// Spots for a text of this size around a node.
pub fn around_node(node: Point, size: Point) -> Vec<Spot> {
    let (width, height) = (size.x / 2.0, size.y / 2.0);
    let (beside, below) = (NODE_RADIUS + GAP + width, NODE_RADIUS + GAP + height);
    let (slant_x, slant_y) = (NODE_RADIUS + width, NODE_RADIUS + height);
    let ways = [
        (0.0, below, "middle"),
        (0.0, -below, "middle"),
        (beside, 0.0, "start"),
        (-beside, 0.0, "end"),
        (slant_x, slant_y, "start"),
        (-slant_x, slant_y, "end"),
        (slant_x, -slant_y, "start"),
        (-slant_x, -slant_y, "end"),
        (width * 0.6, below, "middle"),
        (-width * 0.6, below, "middle"),
        (width * 0.6, -below, "middle"),
        (-width * 0.6, -below, "middle"),
    ];
    let spot = |(order, (x, y, anchor)): (usize, (f64, f64, &'static str))| Spot {
        middle: node.plus(at(x, y)),
        anchor,
        item: node,
        cost: LATER * order as f64,
    };
    ways.into_iter().enumerate().map(spot).collect()
}

/// Spots for a text of this size along the line of an arc, on both sides of it.
pub fn along_bow(bow: &Bow, size: Point) -> Vec<Spot> {
    let mut spots = Vec::new();
    for (away, cost) in AWAY {
        for (order, off) in OFF_SIGN.into_iter().enumerate() {
            let share = (bow.sign + off).clamp(0.1, 0.9);
            // Above the line or to the right of it first.
            let across = bow.along(share).across();
            let turned = across.y > 0.3 || across.x < -0.9;
            let across = across.times(if turned { -1.0 } else { 1.0 });
            let sign = if order == 0 { SIGN } else { 0.0 };
            for side in [across, across.times(-1.0)] {
                let half = (size.x * side.x.abs() + size.y * side.y.abs()) / 2.0;
                let item = bow.at(share);
                spots.push(Spot {
                    middle: item.plus(side.times(sign + GAP + half + away)),
                    anchor: anchor(side.x),
                    item,
                    cost: cost + LATER * order as f64,
                });
            }
        }
    }
    spots
}

/// Spots on the line of an arc, for arcs that lie close: to the right of its sign first.
pub fn on_bow(bow: &Bow, size: Point) -> Vec<Spot> {
    let beside = bow.sign_place().plus(at(SIGN + GAP + size.x / 2.0, 0.0));
    let further = [0.35, 0.65, 0.25, 0.75].map(|share| bow.at(share));
    let middles = [beside].into_iter().chain(further);
    let spot = |(order, middle): (usize, Point)| Spot {
        middle,
        anchor: if order == 0 { "start" } else { "middle" },
        item: middle,
        cost: 300.0 * order as f64,
    };
    middles.enumerate().map(spot).collect()
}

/// Spots beside each other from where a text is now.
pub fn in_row(now: Point) -> Vec<Spot> {
    let spot = |step: i32| {
        let middle = now.plus(at(12.0 * f64::from(step), 0.0));
        Spot {
            middle,
            anchor: "middle",
            item: middle,
            cost: f64::from(step.abs()),
        }
    };
    (-12..=12).map(spot).collect()
}

fn anchor(side: f64) -> &'static str {
    match side {
        side if side > 0.5 => "start",
        side if side < -0.5 => "end",
        _ => "middle",
    }
}

/// Spots for a text of this size above and below an area.
pub fn at_edge(area: Area, size: Point) -> Vec<Spot> {
    let away = GAP + size.y / 2.0;
    let (left, right) = (area.low.x + size.x / 2.0, area.high.x - size.x / 2.0);
    let mut spots = Vec::new();
    for (row, y) in [area.low.y - away, area.high.y + away]
        .into_iter()
        .enumerate()
    {
        for (order, x) in [area.middle().x, left, right].into_iter().enumerate() {
            spots.push(Spot {
                middle: at(x, y),
                anchor: "middle",
                item: at(x, y),
                cost: LATER * (order + 3 * row) as f64,
            });
        }
    }
    spots
}
