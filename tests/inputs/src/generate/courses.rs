//! Courses: pressures that go steadily up or down over the whole horizon.

use super::Draft;
use crate::model::MOST_PRESSURE;
use crate::rng::Rng;

/// Pressures by step, from step 0 on.
pub type Course = Vec<i64>;

/// Steps of a long horizon.
const MANY: usize = 12;

/// Divides every pressure of a course that is drawn, so that one in proportion to it is whole.
const GRAIN: i64 = 20;

/// By more than this a pressure is far from another.
const FAR: i64 = 10_000;

/// The lowest pressure of a course.
const LOWEST: i64 = 10_000;

/// What one course may be of another, in thousandths.
const PROPORTIONS: [i64; 6] = [1_050, 1_100, 1_200, 1_250, 1_500, 2_000];

/// Of the drafts over several steps half have courses, of those over many three in four. Nodes that take them drift
/// together, or in a proportion that machines can keep up.
pub fn draw(rng: &mut Rng, steps: usize) -> Vec<Course> {
    let share = if steps < MANY { 2 } else { 3 };
    if steps == 1 || rng.below(4) >= share {
        return Vec::new();
    }
    let proportion = PROPORTIONS[rng.below(PROPORTIONS.len())];
    let lower = steady(rng, steps, 1_000 * MOST_PRESSURE / proportion);
    let upper = lower.iter().map(|p| p * proportion / 1_000).collect();
    let mut courses = vec![lower, upper];
    if rng.once_in(3) {
        courses.push(steady(rng, steps, MOST_PRESSURE));
    }
    courses
}

/// Up or down by about 15,000 mbar at least, less what pauses take, and by at most 10,000 in a step.
fn steady(rng: &mut Rng, steps: usize, highest: i64) -> Course {
    let count = steps as i64;
    let room = (highest - LOWEST) / count;
    let pace = rng.within(15_000 / count..=room).min(10_000) / GRAIN;
    let start = rng.within(LOWEST / GRAIN..=highest / GRAIN - pace * count);
    let mut pressure = GRAIN * start;
    let mut course = vec![pressure];
    for _ in 0..steps {
        if !rng.once_in(6) {
            pressure += GRAIN * pace;
        }
        course.push(pressure);
    }
    if rng.flip() {
        course.reverse();
    }
    course
}

/// Mostly one of the draft's courses, if it has any.
pub fn take(rng: &mut Rng, draft: &Draft) -> Option<Course> {
    let takes = !draft.courses.is_empty() && rng.below(4) > 0;
    takes.then(|| draft.courses[rng.below(draft.courses.len())].clone())
}

/// Does the node end far from where it began?
pub fn drifts(draft: &Draft, node: usize) -> bool {
    let change = draft.p[draft.steps()][node] - draft.p[0][node];
    change.abs() > FAR
}
