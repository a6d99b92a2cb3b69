//! Storage and friction of pipes, fitted to pressures and flows.

use super::{Draft, DraftArc, MILLION, Role};
use crate::model::{Arc, ArcRow, C, F, G, H, PIPE, SOURCE};
use crate::rng::Rng;

const MOST_STORAGE: i64 = 100_000_000;
const MOST_FRICTION: i64 = 10_000_000;

/// A pipe whose fields are still to be fitted.
pub fn bare(from: usize, to: usize) -> Arc {
    Arc {
        kind: PIPE,
        from,
        to,
        ..Arc::default()
    }
}

/// A storage that, over every span, is a whole multiple of the flow unit per mbar.
pub fn storage_per_unit(rng: &mut Rng, spans: &[i64], unit: i64) -> Option<i64> {
    let step = least_common_multiple(spans)?.checked_mul(unit)?;
    (step <= MOST_STORAGE).then(|| step * rng.skewed(1..=MOST_STORAGE / step))
}

/// None if it is above the largest storage.
fn least_common_multiple(spans: &[i64]) -> Option<i64> {
    spans.iter().try_fold(1, |multiple, &span| {
        let next = multiple / common_divisor(multiple, span) * span;
        (next <= MOST_STORAGE).then_some(next)
    })
}

fn common_divisor(a: i64, b: i64) -> i64 {
    if b == 0 { a } else { common_divisor(b, a % b) }
}

/// 1,000,000 × (to - from) + h × (from + to).
fn slope_part(draft: &Draft, arc: &Arc, step: usize) -> i64 {
    let from = draft.p[step][arc.from];
    let to = draft.p[step][arc.to];
    MILLION * (to - from) + arc.more[H] * (from + to)
}

/// Does the pipe meet 29 in every step as long as friction is 0?
pub fn slope_is_met(draft: &Draft, arc: &Arc) -> bool {
    let most = MILLION * draft.pressure_tolerance;
    (1..=draft.steps()).all(|step| slope_part(draft, arc, step).abs() <= most)
}

/// Gives the pipe a storage and a loss a - b for each step; none if no storage was found.
pub fn fit(rng: &mut Rng, draft: &Draft, mut arc: Arc, role: Role) -> Option<DraftArc> {
    let changes: Vec<i64> = (1..=draft.steps())
        .map(|step| change(draft, arc.from, step) + change(draft, arc.to, step))
        .collect();
    let whole = least_common_multiple(&draft.spans);
    for attempt in 0..12 {
        let storage = match (attempt, whole) {
            (11, _) => 1,
            (0..=5, Some(whole)) => whole * rng.skewed(1..=MOST_STORAGE / whole),
            _ => rng.skewed(1..=MOST_STORAGE) >> rng.below(27),
        };
        let storage = storage.max(1);
        if let Some(lost) = losses(rng, draft, storage, &changes) {
            arc.more[C] = storage;
            let mut pipe = DraftArc::new(arc, role, draft.steps());
            pipe.lost = lost;
            return Some(pipe);
        }
    }
    None
}

fn change(draft: &Draft, node: usize, step: usize) -> i64 {
    draft.p[step][node] - draft.p[step - 1][node]
}

/// For each step an a - b that meets 28 and stays within the share.
fn losses(rng: &mut Rng, draft: &Draft, storage: i64, changes: &[i64]) -> Option<Vec<i64>> {
    let mut lost = vec![0];
    for (index, &change) in changes.iter().enumerate() {
        let span = draft.spans[index];
        let stored = storage * change;
        let least = -(draft.mass_tolerance - stored).div_euclid(span);
        let most = (stored + draft.mass_tolerance).div_euclid(span);
        let (least, most) = (least.max(-draft.share), most.min(draft.share));
        if least > most {
            return None;
        }
        lost.push(match rng.below(3) {
            0 => stored.div_euclid(span).clamp(least, most),
            _ => rng.skewed(least..=most),
        });
    }
    Some(lost)
}

/// Gives a finished pipe as much friction as 29 leaves room for.
pub fn add_friction(rng: &mut Rng, draft: &Draft, pipe: &DraftArc) -> [i64; 2] {
    let size = |flow: fn(&ArcRow) -> i64| {
        let flows = pipe.rows[1..].iter().map(flow);
        flows.map(i64::abs).max().unwrap_or(0) + 1
    };
    let room = 2 * MILLION * draft.pressure_tolerance;
    let mut most_f = (room / size(|row| row.a)).min(MOST_FRICTION);
    let mut most_g = (room / size(|row| row.b)).min(MOST_FRICTION);
    for _ in 0..8 {
        let [f, g] = [rng.skewed(0..=most_f), rng.skewed(0..=most_g)];
        if friction_is_met(draft, pipe, f, g) {
            return [f, g];
        }
        most_f /= 2;
        most_g /= 2;
    }
    [0, 0]
}

fn friction_is_met(draft: &Draft, pipe: &DraftArc, f: i64, g: i64) -> bool {
    let most = MILLION * draft.pressure_tolerance;
    (1..=draft.steps()).all(|step| {
        let row = pipe.rows[step];
        let left = slope_part(draft, &pipe.arc, step) + f * row.a + g * row.b;
        left.abs() <= most
    })
}

/// Moves a spur's friction and flow off the exact values, as far as E and H leave room.
pub fn loosen_spur(rng: &mut Rng, draft: &mut Draft, index: usize) {
    let more = draft.arcs[index].arc.more;
    let forward = draft.kinds[draft.arcs[index].arc.from] == SOURCE;
    for step in 1..=draft.steps() {
        let room = draft.mass_tolerance / draft.span(step);
        let friction = more[F].max(more[G]).max(1);
        let room = room.min(MILLION * draft.pressure_tolerance / 3 / friction);
        let room = room.min(1_000_000);
        // Away from 0, so that the flow doesn't turn round.
        let shift = rng.skewed(0..=room);
        draft.arcs[index].rows[step].a += if forward { shift } else { -shift };
    }
    let [f, g] = [F, G].map(|place| more[place]);
    for _ in 0..4 {
        let noisy_f = (f + rng.skewed(0..=1_000)).min(MOST_FRICTION);
        let noisy_g = (g + rng.skewed(0..=1_000)).min(MOST_FRICTION);
        if friction_is_met(draft, &draft.arcs[index], noisy_f, noisy_g) {
            draft.arcs[index].arc.more[F] = noisy_f;
            draft.arcs[index].arc.more[G] = noisy_g;
            return;
        }
    }
}
