//! Accepted pairs of case and plan, from a seed.
//!
//! Pressures come first, then the arcs that these pressures allow, then settings,
//! then flows; limits and rows of the case are put around the finished plan last.

mod arcs;
mod courses;
mod ends;
mod finish;
mod flows;
mod pipes;
mod pressures;
mod ratios;
mod settings;
mod spurs;
mod states;

pub use ends::at_the_ends;

use crate::model::{Arc, ArcRow, MOST_FLOW, Pair, StationRow};
use crate::rng::Rng;
use courses::Course;

/// A millionth is the unit of friction and slope.
const MILLION: i64 = 1_000_000;

/// How large a pair is to be.
#[derive(Clone, Copy, Debug)]
pub struct Size {
    pub nodes: usize,
    pub arcs: usize,
    pub stations: usize,
    pub steps: usize,
}

impl Size {
    /// All four counts as large as the document allows.
    pub const LARGEST: Size = Size {
        nodes: 60,
        arcs: 120,
        stations: 8,
        steps: 48,
    };

    /// More arcs than a station may have, and one station for them.
    const CROWDED: Size = Size {
        nodes: 8,
        arcs: 40,
        stations: 1,
        steps: 2,
    };

    /// Mostly small, sometimes one node alone, sometimes large, sometimes small over many steps.
    pub fn draw(rng: &mut Rng) -> Size {
        if rng.once_in(40) {
            return Size::CROWDED;
        }
        let ranges = match rng.below(60) {
            0 => [1..=1, 0..=0, 0..=0, 1..=1],
            1..=5 => [1..=3, 0..=4, 0..=2, 1..=2],
            6..=43 => [1..=14, 0..=26, 0..=3, 1..=6],
            44..=49 => [4..=10, 8..=18, 1..=2, 12..=27],
            50..=57 => [1..=30, 0..=60, 0..=5, 1..=12],
            _ => [1..=60, 0..=120, 0..=8, 1..=24],
        };
        let [nodes, arcs, stations, steps] = ranges.map(|range| rng.within(range) as usize);
        Size {
            nodes,
            arcs,
            stations,
            steps,
        }
    }
}

/// A pair that is to be accepted, of random size.
pub fn accepted(rng: &mut Rng) -> Pair {
    match rng.below(12) {
        0 => at_the_ends(rng),
        _ => {
            let size = Size::draw(rng);
            of_size(rng, size)
        }
    }
}

/// A pair that is to be accepted, of this size. One node alone has no arcs.
pub fn of_size(rng: &mut Rng, size: Size) -> Pair {
    let mut draft = Draft::new(rng, size);
    pressures::draw(rng, &mut draft, size);
    arcs::draw(rng, &mut draft, size);
    settings::draw(rng, &mut draft);
    flows::draw(rng, &mut draft);
    finish::pair(rng, draft)
}

/// A pair in the making. Steps count from 1; what has a step 0 holds it at place 0.
struct Draft {
    mass_tolerance: i64,
    pressure_tolerance: i64,
    spans: Vec<i64>,
    /// The most that one cause may add to a flow, so that no sum passes 10,000,000.
    share: i64,
    /// Pressure levels that nodes tend to have, so that equal pressures occur.
    levels: Vec<i64>,
    /// Courses that nodes tend to take where pressures drift; else none.
    courses: Vec<Course>,
    /// Pressures by step and node; step 0 holds p0.
    p: Vec<Vec<i64>>,
    /// Actual boundary flows by step and node; step 0 is unused.
    d: Vec<Vec<i64>>,
    kinds: Vec<i64>,
    groups: Vec<Group>,
    group_of: Vec<usize>,
    arcs: Vec<DraftArc>,
    stations: Vec<DraftStation>,
    station_of: Vec<Option<usize>>,
}

/// Nodes joined by pipes.
struct Group {
    /// In a tree each node comes after its parent.
    nodes: Vec<usize>,
    style: Style,
}

#[derive(Clone, Copy)]
enum Style {
    /// A node without pipes.
    Single,
    /// A source and a sink with one pipe between, whose flows come with its pressures.
    Spur,
    /// The root's flow takes up what is left; the partner of the other kind keeps its sign.
    Tree { root: usize, partner: usize },
}

struct DraftArc {
    arc: Arc,
    role: Role,
    /// Rows by step; step 0 is unused.
    rows: Vec<ArcRow>,
    /// a - b by step, of a pipe.
    lost: Vec<i64>,
}

#[derive(Clone, Copy, PartialEq, Eq)]
enum Role {
    /// A tree's pipe to this child.
    Tree {
        child: usize,
    },
    /// A further pipe between nodes of a tree.
    Loop,
    Spur,
    Other,
}

#[derive(Default)]
struct DraftStation {
    nodes: Vec<usize>,
    machines: Vec<[i64; 2]>,
    /// Entry set, exit set, weight.
    directions: Vec<[i64; 3]>,
    fence: i64,
    rows: Vec<StationRow>,
}

impl Draft {
    fn new(rng: &mut Rng, size: Size) -> Self {
        let spans = draw_spans(rng, size.steps);
        let causes = size.nodes + size.arcs + flows::WALKS + 4;
        let share = MOST_FLOW / (8 * causes as i64);
        let mass_tolerance = match rng.below(6) {
            0 => 0,
            1 => spans.iter().copied().max().unwrap_or(0),
            2 => rng.within(0..=100),
            3 => 1_000_000,
            _ => rng.skewed(0..=1_000_000),
        };
        let pressure_tolerance = match rng.below(5) {
            0 => 0,
            1 => rng.within(0..=20),
            2 => 1_000,
            _ => rng.skewed(0..=1_000),
        };
        Draft {
            mass_tolerance,
            pressure_tolerance,
            spans,
            share: (share >> rng.below(16)).max(1),
            levels: draw_levels(rng),
            courses: courses::draw(rng, size.steps),
            p: vec![vec![0; size.nodes]; size.steps + 1],
            d: vec![vec![0; size.nodes]; size.steps + 1],
            kinds: vec![0; size.nodes],
            groups: Vec::new(),
            group_of: vec![0; size.nodes],
            arcs: Vec::new(),
            stations: Vec::new(),
            station_of: vec![None; size.nodes],
        }
    }

    fn steps(&self) -> usize {
        self.spans.len()
    }

    fn span(&self, step: usize) -> i64 {
        self.spans[step - 1]
    }

    /// The largest imbalance, in g/s, that 33 allows in this step.
    fn imbalance(&self, step: usize) -> i64 {
        (self.mass_tolerance / self.span(step)).min(self.share)
    }
}

impl DraftArc {
    fn new(arc: Arc, role: Role, steps: usize) -> Self {
        DraftArc {
            arc,
            role,
            rows: vec![ArcRow::default(); steps + 1],
            lost: vec![0; steps + 1],
        }
    }
}

fn draw_spans(rng: &mut Rng, steps: usize) -> Vec<i64> {
    let style = rng.below(3);
    let same = rng.skewed(1..=86_400);
    (0..steps)
        .map(|_| match style {
            0 => same,
            1 => 86_400 / [1, 2, 24, 48, 96, 1_440, 86_400][rng.below(7)],
            _ => rng.skewed(1..=86_400),
        })
        .collect()
}

/// Multiples of 1,980, which many slopes divide without remainder.
fn draw_levels(rng: &mut Rng) -> Vec<i64> {
    let count = 2 + rng.below(3);
    let mut levels: Vec<i64> = (0..count).map(|_| 1_980 * rng.within(10..=90)).collect();
    if rng.once_in(8) {
        levels.extend([0, 200_000]);
    }
    levels
}
