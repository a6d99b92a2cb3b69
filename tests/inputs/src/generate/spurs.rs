//! Spurs: a source and a sink with one pipe between.

use super::{Draft, DraftArc, MILLION, Role, Style, pipes};
use crate::model::{C, F, G, H, SINK, SOURCE};
use crate::rng::Rng;

/// The most units of flow that a spur stores in a step.
const MOST_STORED: i64 = 2_000;

/// Two boundary nodes and a pipe that meets 28 and 29 to the unit, whatever E and H are.
///
/// Flows are multiples of a unit, and f and g even multiples of a million over the
/// unit, so that friction comes to whole and even mbar; the same holds for the slope.
pub fn draw(rng: &mut Rng, draft: &mut Draft, from: usize, to: usize) -> Style {
    let sign = if rng.flip() { 1 } else { -1 };
    let kinds = [SINK, 0, SOURCE];
    draft.kinds[from] = kinds[(1 + sign) as usize];
    draft.kinds[to] = kinds[(1 - sign) as usize];
    let unit = [1, 10, 100, 1_000][rng.below(4)];
    let storage = pipes::storage_per_unit(rng, &draft.spans, unit);
    let mut spur = Spur {
        sign,
        unit,
        storage,
        f: 2 * rng.within(0..=3),
        g: 2 * rng.within(0..=3),
        slope: 2 * rng.within(-4..=4),
        drift: 0,
    };
    if !draft.courses.is_empty() {
        spur.drift = spur.steady_change(rng, &draft.spans);
    }
    let mut arc = pipes::bare(from, to);
    arc.more[C] = storage.unwrap_or_else(|| rng.skewed(1..=100_000_000));
    arc.more[F] = spur.f * MILLION / unit;
    arc.more[G] = spur.g * MILLION / unit;
    arc.more[H] = spur.slope * 1_000;
    let pipe = DraftArc::new(arc, Role::Spur, draft.steps());
    let pipe = spur.run(rng, draft, pipe);
    draft.arcs.push(pipe);
    if rng.flip() {
        pipes::loosen_spur(rng, draft, draft.arcs.len() - 1);
    }
    Style::Spur
}

/// A spur's data: friction in mbar per unit, slope in thousandths.
struct Spur {
    /// The sign of its flows.
    sign: i64,
    unit: i64,
    /// None if the pressures must not change in sum.
    storage: Option<i64>,
    f: i64,
    g: i64,
    slope: i64,
    /// The change of from + to in every step where they drift, else 0.
    drift: i64,
}

impl Spur {
    /// Gives the pipe's ends their pressures and the pipe its flows, in every step.
    fn run(&self, rng: &mut Rng, draft: &mut Draft, mut pipe: DraftArc) -> DraftArc {
        let (from, to) = (pipe.arc.from, pipe.arc.to);
        // Where they are to fall, they begin higher.
        let above = if self.drift < 0 { 40 } else { 0 };
        let mut sum = 2_000 * (above + rng.within(30..=90));
        (draft.p[0][from], draft.p[0][to]) = (sum / 2, sum / 2);
        for step in 1..=draft.steps() {
            let (change, stored) = self.change(rng, draft.span(step), sum);
            sum += change;
            let b = self.sign * (stored.abs() + rng.within(0..=300));
            let a = b + stored;
            let drop = self.f * a + self.g * b + self.slope * (sum / 1_000);
            (draft.p[step][from], draft.p[step][to]) = ((sum + drop) / 2, (sum - drop) / 2);
            (pipe.rows[step].a, pipe.rows[step].b) = (self.unit * a, self.unit * b);
        }
        pipe
    }

    /// What a change of from + to is a multiple of, so that the slope comes to whole and even mbar.
    fn grain(&self) -> i64 {
        if self.slope == 0 { 2 } else { 2_000 }
    }

    /// A change, up or down, that can be stored in a step of any of these spans; 0 if there is none.
    fn steady_change(&self, rng: &mut Rng, spans: &[i64]) -> i64 {
        let shortest = spans.iter().copied().min().unwrap_or(1);
        let per_mbar = self.storage.unwrap_or(0) / shortest / self.unit;
        let most = MOST_STORED.checked_div(per_mbar).unwrap_or(0) / self.grain();
        let change = self.grain() * rng.within(most.min(1)..=most);
        if rng.flip() { change } else { -change }
    }

    /// A change of from + to in a step, and the units of flow that it stores.
    fn change(&self, rng: &mut Rng, span: i64, sum: i64) -> (i64, i64) {
        let change = match self.drift {
            0 => self.grain() * rng.within(-1..=1),
            drift => drift,
        };
        let Some(storage) = self.storage else {
            return (0, 0);
        };
        let stored = storage / span / self.unit * change;
        let fits = stored.abs() <= MOST_STORED && (50_000..=350_000).contains(&(sum + change));
        if fits { (change, stored) } else { (0, 0) }
    }
}
