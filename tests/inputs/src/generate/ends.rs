//! Accepted pairs whose numbers lie at the ends of their ranges.

use crate::model::{
    Arc, ArcRow, BOTH_WAYS, C, COMPRESSOR, Case, F, G, H, MOST_FLOW, MOST_PRESSURE, MOST_WEIGHT,
    Node, NodeRow, PIPE, Pair, Plan, REGULATOR, SINK, SOURCE, STATION, Station, StationRow, Step,
    VALVE,
};
use crate::rng::Rng;

/// Two boundary nodes and the arc between them.
struct Link {
    kinds: [i64; 2],
    p0: [i64; 2],
    p: [i64; 2],
    arc: Arc,
    /// The arc's row in step 1 and in every later step.
    first: ArcRow,
    later: ArcRow,
}

/// Links side by side, in cases with extreme spans, tolerances, slacks and weights.
pub fn at_the_ends(rng: &mut Rng) -> Pair {
    let steps = [1, 2, 3, 48][rng.below(4)];
    let span = [1, 86_400][rng.below(2)];
    let mut pair = Pair {
        case: Case {
            mass_tolerance: [0, 1_000_000][rng.below(2)],
            pressure_tolerance: [0, 1_000][rng.below(2)],
            times: (1..=steps).map(|step| step * span).collect(),
            ..Case::default()
        },
        plan: Plan {
            steps: (0..steps).map(|_| Step::default()).collect(),
        },
    };
    let count = [1, 2, 5, 30][rng.below(4)];
    for _ in 0..count {
        let link = match rng.below(6) {
            0 => full_pipe(rng, &pair.case),
            1 => filled_pipe(rng, span),
            2 => sloped_pipe(rng, &pair.case),
            3 => valve(rng),
            4 => regulator(),
            _ => compressor(rng),
        };
        let crowded = pair.case.stations.len() == 8;
        if link.arc.kind != COMPRESSOR || !crowded {
            add_link(rng, &mut pair, link);
        }
    }
    pair
}

fn arc_of(kind: i64, more: [i64; 7]) -> Arc {
    Arc {
        kind,
        qmax: MOST_FLOW,
        more,
        ..Arc::default()
    }
}

fn flows(a: i64, b: i64) -> ArcRow {
    ArcRow {
        a,
        b,
        ..ArcRow::default()
    }
}

/// A steady pipe at its highest flow, forward or backward, with friction up to H.
fn full_pipe(rng: &mut Rng, case: &Case) -> Link {
    let friction = 50 * case.pressure_tolerance / 1_000;
    let mut more = [0; 7];
    (more[C], more[F], more[G]) = (100_000_000, friction, friction);
    let loss = rng.skewed(0..=case.mass_tolerance / case.span(1));
    let (kinds, row) = if rng.flip() {
        ([SOURCE, SINK], flows(MOST_FLOW, MOST_FLOW - loss))
    } else {
        ([SINK, SOURCE], flows(loss - MOST_FLOW, -MOST_FLOW))
    };
    Link {
        kinds,
        p0: [MOST_PRESSURE; 2],
        p: [MOST_PRESSURE; 2],
        arc: arc_of(PIPE, more),
        first: row,
        later: row,
    }
}

/// A pipe filled from both ends, or emptied at both, in one step.
fn filled_pipe(rng: &mut Rng, span: i64) -> Link {
    let mut more = [0; 7];
    (more[C], more[F], more[G]) = (50 * span, 10_000_000, 10_000_000);
    let (kinds, p0, p, row) = if rng.flip() {
        (
            [SOURCE; 2],
            [0; 2],
            [MOST_PRESSURE; 2],
            flows(MOST_FLOW, -MOST_FLOW),
        )
    } else {
        (
            [SINK; 2],
            [MOST_PRESSURE; 2],
            [0; 2],
            flows(-MOST_FLOW, MOST_FLOW),
        )
    };
    Link {
        kinds,
        p0,
        p,
        arc: arc_of(PIPE, more),
        first: row,
        later: ArcRow::default(),
    }
}

/// The steepest slope, with the end pressures off by H at most.
fn sloped_pipe(rng: &mut Rng, case: &Case) -> Link {
    let mut more = [0; 7];
    (more[C], more[F], more[G]) = (1, 10_000_000, 10_000_000);
    // Off by n mbar at to, the left side of 29 is n × (1,000,000 + h).
    let most = case.pressure_tolerance * 10 / 12;
    let off = rng.skewed(-most..=most);
    let p = if rng.flip() {
        more[H] = 200_000;
        [180_000, 120_000 + off]
    } else {
        more[H] = -200_000;
        [120_000, 180_000 + off]
    };
    Link {
        kinds: [SOURCE, SINK],
        p0: p,
        p,
        arc: arc_of(PIPE, more),
        first: ArcRow::default(),
        later: ArcRow::default(),
    }
}

fn valve(rng: &mut Rng) -> Link {
    let row = ArcRow {
        setting: 1,
        ..flows(MOST_FLOW, [0, MOST_FLOW][rng.below(2)])
    };
    Link {
        kinds: [SOURCE, SINK],
        p0: [0, MOST_PRESSURE],
        p: [[0, MOST_PRESSURE][rng.below(2)]; 2],
        arc: arc_of(VALVE, [0; 7]),
        first: row,
        later: row,
    }
}

fn regulator() -> Link {
    Link {
        kinds: [SOURCE, SINK],
        p0: [0, MOST_PRESSURE],
        p: [MOST_PRESSURE, 0],
        arc: arc_of(REGULATOR, [0; 7]),
        first: flows(MOST_FLOW, 0),
        later: flows(MOST_FLOW, 0),
    }
}

/// In pressure, out pressure and machines at the highest ratio. Of all twelve 1,835 is the lowest in pressure that
/// reaches 200,000, eleven reach it from 2,000 exactly; from 0 all reach 0; none keep the pressure that there is.
const REACHES: [(i64, i64, i64); 4] = [
    (1_835, MOST_PRESSURE, 4_095),
    (2_000, MOST_PRESSURE, 2_047),
    (0, 0, 4_095),
    (MOST_PRESSURE, MOST_PRESSURE, 0),
];

/// Compresses as far as the machines reach, whatever p0 is.
fn compressor(rng: &mut Rng) -> Link {
    let (p_in, p_out, machines) = REACHES[rng.below(4)];
    let flow = if machines == 0 { 0 } else { MOST_FLOW };
    let [p0_in, p0_out] = [0; 2].map(|_| [0, MOST_PRESSURE][rng.below(2)]);
    let row = ArcRow {
        setting: 1,
        machines,
        ..flows(flow, 0)
    };
    let link = Link {
        kinds: [SOURCE, SINK],
        p0: [p0_in, p0_out],
        p: [p_in, p_out],
        arc: arc_of(COMPRESSOR, [0, 0, MOST_WEIGHT, 0, 4_095, 12, MOST_PRESSURE]),
        first: row,
        later: row,
    };
    if rng.flip() { link } else { backward(link) }
}

/// The link with its ends exchanged, so that the gas goes from to to from.
fn backward(mut link: Link) -> Link {
    let turned = |row: ArcRow| ArcRow {
        a: row.b,
        b: row.a,
        setting: 2,
        ..row
    };
    link.arc.more[BOTH_WAYS] = 1;
    (link.first, link.later) = (turned(link.first), turned(link.later));
    for ends in [&mut link.kinds, &mut link.p0, &mut link.p] {
        ends.reverse();
    }
    link
}

/// A station of its own for a compressor, off at step 0, on from step 1.
fn station() -> Station {
    Station {
        direction_at_0: 7,
        state_at_0: 15,
        directions: vec![[0, 0, MOST_WEIGHT]; 8],
        states: (0..16)
            .map(|state| match state {
                15 => [0, 0, 1, MOST_WEIGHT],
                _ => [255, 1, 0, MOST_WEIGHT],
            })
            .collect(),
        machines: vec![[MOST_FLOW, 10_000]; 12],
    }
}

fn add_link(rng: &mut Rng, pair: &mut Pair, link: Link) {
    let first_node = pair.case.nodes.len();
    let mut arc = link.arc;
    (arc.from, arc.to) = (first_node, first_node + 1);
    if arc.kind == COMPRESSOR {
        arc.more[STATION] = pair.case.stations.len() as i64;
        pair.case.stations.push(station());
    }
    for (index, step) in pair.plan.steps.iter_mut().enumerate() {
        let row = if index == 0 { link.first } else { link.later };
        step.arcs.push(row);
        if arc.kind == COMPRESSOR {
            step.stations.push(StationRow::default());
        }
    }
    for end in 0..2 {
        let balance = |row: ArcRow| match (arc.kind == PIPE, end) {
            (true, 0) => row.a,
            (true, _) => -row.b,
            (false, 0) => row.a - row.b,
            (false, _) => row.b - row.a,
        };
        let flows = [balance(link.first), balance(link.later)];
        add_node(rng, pair, link.kinds[end], link.p0[end], link.p[end], flows);
    }
    pair.case.arcs.push(arc);
}

/// Adds a boundary node with slacks at their ends, off balance by up to E.
fn add_node(rng: &mut Rng, pair: &mut Pair, kind: i64, p0: i64, p: i64, flows: [i64; 2]) {
    let (low, high) = (0, MOST_PRESSURE);
    let active = [p, low, high][rng.below(3)];
    let mut node = Node {
        kind,
        p0,
        low,
        high,
        actlow: active,
        acthigh: active,
        demands: Vec::new(),
    };
    let lean = rng.skewed(0..=pair.case.mass_tolerance / pair.case.span(1));
    for (index, step) in pair.plan.steps.iter_mut().enumerate() {
        let flow = flows[index.min(1)];
        // Towards 0, so that the size stays at 10,000,000 at most.
        let d = flow - flow.signum() * lean.min(flow.abs());
        let slack = [0, MOST_FLOW][rng.below(2)];
        node.demands.push(d);
        step.nodes.push(NodeRow {
            p,
            d,
            s_plus: slack,
            s_minus: slack,
            u_plus: (active - p).max(0),
            u_minus: (p - active).max(0),
        });
    }
    pair.case.nodes.push(node);
}
