//! Pressures of all nodes and steps, together with the pipes that bind them.

use super::courses::{self, Course};
use super::{Draft, DraftArc, Group, MILLION, Role, Size, Style, pipes, spurs};
use crate::model::{Arc, H, MOST_PRESSURE, SINK, SOURCE};
use crate::rng::Rng;

/// Parts the nodes into groups and gives each group pipes and pressures.
pub fn draw(rng: &mut Rng, draft: &mut Draft, size: Size) {
    let mut left: Vec<usize> = (0..size.nodes).collect();
    rng.shuffle(&mut left);
    let mut pipes_left = size.arcs.div_ceil(2);
    while let Some(first) = left.pop() {
        let most = left.len().min(pipes_left).min(6);
        let more = if most == 0 || rng.once_in(2) {
            0
        } else {
            1 + rng.below(most)
        };
        pipes_left -= more;
        let mut nodes = vec![first];
        nodes.extend(left.split_off(left.len() - more));
        for &node in &nodes {
            draft.group_of[node] = draft.groups.len();
        }
        let style = match more {
            0 => single(rng, draft, first),
            1 if rng.flip() => spurs::draw(rng, draft, nodes[0], nodes[1]),
            _ => tree(rng, draft, &nodes),
        };
        draft.groups.push(Group { nodes, style });
    }
}

fn draw_level(rng: &mut Rng, draft: &Draft) -> i64 {
    draft.levels[rng.below(draft.levels.len())]
}

/// A node without pipes drifts along a course or goes from level to level as it likes; its p0 is free.
fn single(rng: &mut Rng, draft: &mut Draft, node: usize) -> Style {
    draft.kinds[node] = rng.within(0..=2);
    let course = courses::take(rng, draft).unwrap_or_else(|| leaps(rng, draft));
    put(draft, node, &course);
    if rng.once_in(4) {
        draft.p[0][node] = rng.skewed(0..=MOST_PRESSURE);
    }
    Style::Single
}

/// From level to level.
fn leaps(rng: &mut Rng, draft: &Draft) -> Course {
    let mut pressure = draw_level(rng, draft);
    let mut course = vec![pressure];
    for _ in 0..draft.steps() {
        if rng.once_in(3) {
            pressure = draw_level(rng, draft);
        }
        course.push(pressure);
    }
    course
}

fn put(draft: &mut Draft, node: usize, course: &Course) {
    for (pressures, &pressure) in draft.p.iter_mut().zip(course) {
        pressures[node] = pressure;
    }
}

/// A tree of pipes; if its changing pressures find no fitting pipes, it stands still.
fn tree(rng: &mut Rng, draft: &mut Draft, nodes: &[usize]) -> Style {
    let root = nodes[0];
    let partner = nodes[1 + rng.below(nodes.len() - 1)];
    for &node in nodes {
        draft.kinds[node] = [0, 0, 0, 1, 2][rng.below(5)];
    }
    draft.kinds[root] = rng.within(SOURCE..=SINK);
    draft.kinds[partner] = SOURCE + SINK - draft.kinds[root];
    let restless = rng.below(5) > 0;
    let grown = (0..3).find_map(|_| grow(rng, draft, nodes, restless));
    let arcs = grown.or_else(|| grow(rng, draft, nodes, false));
    draft.arcs.extend(arcs.unwrap_or_default());
    Style::Tree { root, partner }
}

/// Gives every node of the tree its pressures, and the pipes; none if a pipe doesn't fit.
fn grow(
    rng: &mut Rng,
    draft: &mut Draft,
    nodes: &[usize],
    restless: bool,
) -> Option<Vec<DraftArc>> {
    root_pressures(rng, draft, nodes[0], restless);
    let mut grown = Vec::new();
    for (place, &child) in nodes.iter().enumerate().skip(1) {
        let parent = nodes[rng.below(place)];
        let mut arc = if rng.flip() {
            pipes::bare(parent, child)
        } else {
            pipes::bare(child, parent)
        };
        let styles = if restless { 3 } else { 1 };
        child_pressures(rng, draft, &mut arc, parent, child, styles);
        grown.push(pipes::fit(rng, draft, arc, Role::Tree { child })?);
    }
    if nodes.len() > 2 && rng.flip() {
        let from = nodes[rng.below(nodes.len())];
        let to = nodes[rng.below(nodes.len())];
        let arc = pipes::bare(from, to);
        if from != to && pipes::slope_is_met(draft, &arc) {
            grown.extend(pipes::fit(rng, draft, arc, Role::Loop));
        }
    }
    Some(grown)
}

/// A root stands still, or it drifts along a course or moves a little up and down.
fn root_pressures(rng: &mut Rng, draft: &mut Draft, root: usize, restless: bool) {
    let level = draw_level(rng, draft);
    let course = if restless {
        courses::take(rng, draft).unwrap_or_else(|| sway(rng, draft, level))
    } else {
        vec![level; draft.steps() + 1]
    };
    put(draft, root, &course);
}

/// A little up and down.
fn sway(rng: &mut Rng, draft: &Draft, level: i64) -> Course {
    let reach = [1, 4, 60, 1_980][rng.below(4)];
    let mut course = vec![level];
    for step in 0..draft.steps() {
        let change = if rng.flip() {
            rng.within(-reach..=reach)
        } else {
            0
        };
        course.push((course[step] + change).clamp(0, MOST_PRESSURE));
    }
    course
}

/// A child stands a little above or below its parent, or in the proportion of a slope.
fn child_pressures(
    rng: &mut Rng,
    draft: &mut Draft,
    arc: &mut Arc,
    parent: usize,
    child: usize,
    styles: usize,
) {
    let tolerance = draft.pressure_tolerance;
    let offset = rng.skewed(-tolerance..=tolerance);
    let style = rng.below(styles);
    if style == 2 {
        let slopes = [8_000, 10_000, 20_000, 50_000, 62_500, 100_000, 200_000];
        let slope = slopes[rng.below(7)];
        arc.more[H] = if rng.flip() { slope } else { -slope };
    }
    for step in 0..=draft.steps() {
        let pressure = draft.p[step][parent];
        draft.p[step][child] = match style {
            0 => pressure + offset,
            1 => pressure + rng.within(-tolerance..=tolerance),
            _ => sloped(pressure, arc.more[H], arc.to == child),
        };
    }
    let in_range = (0..=draft.steps()).all(|t| (0..=MOST_PRESSURE).contains(&draft.p[t][child]));
    if !in_range || !pipes::slope_is_met(draft, arc) {
        arc.more[H] = 0;
        for step in 0..=draft.steps() {
            draft.p[step][child] = draft.p[step][parent];
        }
    }
}

/// The other end's pressure, to the nearest mbar, where the slope alone counts.
fn sloped(pressure: i64, slope: i64, other_is_to: bool) -> i64 {
    let slope = if other_is_to { slope } else { -slope };
    let (above, below) = (MILLION - slope, MILLION + slope);
    (pressure * above + below / 2) / below
}
