//! The example of docs/OPTIMISERS.md: a source, a pipe, a compressor station, a pipe and a sink, over two hours.
//!
//! A solution has decimals, here as whole thousandths. Its plan has whole numbers.

use crate::model::{
    ACTIVE, Arc, ArcRow, C, COMPRESSOR, Case, F, G, INNER, MACHINES, MOST, Node, NodeRow, PIPE,
    Pair, Plan, SINK, SOURCE, Station, StationRow, Step,
};

const NODES: usize = 4;
const STEPS: usize = 2;
const HOUR: i64 = 3_600;
const SINK_NODE: usize = 3;
const STORAGES: [i64; 2] = [4_500, 1_800];
const FRICTION: i64 = 20_000;

/// 2 × the largest c + dt.
pub const MASS_TOLERANCE: i64 = 2 * STORAGES[0] + HOUR;
/// Above 1 + (f + g) / 2,000,000.
pub const PRESSURE_TOLERANCE: i64 = 2;

/// Thousandths in a whole.
pub const UNIT: i64 = 1_000;

/// The numbers of steps 1 and 2.
#[derive(Clone, Copy, Debug)]
pub struct Solution {
    pub pressures: [[i64; NODES]; STEPS],
    /// d of node 0, into the first pipe.
    pub supplied: [i64; STEPS],
    /// Out of the first pipe, through the station and into the second pipe.
    pub passed: [i64; STEPS],
    /// Out of the second pipe, -d of node 3.
    pub delivered: [i64; STEPS],
}

/// In thousandths; the station's out pressure is far below what its machine reaches from the in pressure.
pub const WITH_ROOM: Solution = Solution {
    pressures: [
        [50_041_610, 48_840_590, 54_678_510, 53_478_490],
        [50_064_483, 48_825_477, 54_668_899, 53_429_501],
    ],
    supplied: [30_050_000, 30_980_000],
    passed: [30_001_000, 30_970_300],
    delivered: [30_000_000, 30_999_600],
};

/// In thousandths, with 1.00088 mbar left in step 2, where rounding takes more.
pub const A_MBAR_LEFT: Solution = Solution {
    pressures: [
        [50_043_755, 48_842_845, 54_672_955, 53_473_045],
        [50_072_221, 48_833_499, 54_692_518, 53_454_282],
    ],
    passed: [29_995_500, 30_956_100],
    delivered: [30_000_000, 30_955_700],
    ..WITH_ROOM
};

/// In thousandths, at what the station's machine reaches in step 2.
pub const AT_THE_REACH: Solution = Solution {
    pressures: [
        [50_043_482, 48_842_558, 54_673_662, 53_473_738],
        [50_056_965, 48_817_475, 54_675_572, 53_435_428],
    ],
    passed: [29_996_200, 30_994_500],
    delivered: [30_000_000, 31_012_700],
    ..WITH_ROOM
};

impl Solution {
    /// Every number to the nearest whole one.
    pub fn rounded(&self) -> Solution {
        let whole = |number: i64| (number + UNIT / 2).div_euclid(UNIT);
        Solution {
            pressures: self.pressures.map(|step| step.map(whole)),
            supplied: self.supplied.map(whole),
            passed: self.passed.map(whole),
            delivered: self.delivered.map(whole),
        }
    }

    /// The plan for a case of the same unit: the slack is what the demand leaves.
    fn plan(&self, case: &Case) -> Plan {
        let step = |step: usize| {
            let mut nodes = self.pressures[step].map(|p| NodeRow {
                p,
                ..NodeRow::default()
            });
            nodes[0].d = self.supplied[step];
            nodes[SINK_NODE].d = -self.delivered[step];
            nodes[SINK_NODE].s_minus = -self.delivered[step] - case.nodes[SINK_NODE].demands[step];
            Step {
                nodes: nodes.to_vec(),
                arcs: vec![
                    flows(self.supplied[step], self.passed[step], 0, 0),
                    flows(self.passed[step], 0, 1, 1),
                    flows(self.passed[step], self.delivered[step], 0, 0),
                ],
                stations: vec![StationRow::default()],
            }
        };
        Plan {
            steps: (0..STEPS).map(step).collect(),
        }
    }
}

fn flows(a: i64, b: i64, setting: i64, machines: i64) -> ArcRow {
    ArcRow {
        a,
        b,
        setting,
        machines,
    }
}

/// The case and the rounded plan.
pub fn judged(solution: &Solution) -> Pair {
    let case = case(1);
    let plan = solution.rounded().plan(&case);
    Pair { case, plan }
}

/// The same before rounding: pressures, flows and demands of case and plan in thousandths.
pub fn in_thousandths(solution: &Solution) -> Pair {
    let case = case(UNIT);
    let plan = solution.plan(&case);
    Pair { case, plan }
}

/// The demand of node 3 as if it were met: its slack is left to 33.
pub fn hide_slack(pair: &mut Pair) {
    for step in 1..=STEPS {
        let demand = pair.case.nodes[SINK_NODE].demands[step - 1];
        let row = pair.node_mut(step, SINK_NODE);
        (row.d, row.s_minus) = (demand, 0);
    }
}

/// With pressures and demands in so many parts of a mbar and of a g/s.
fn case(unit: i64) -> Case {
    let node = |kind: i64, p0: i64, demands: [i64; STEPS]| Node {
        kind,
        p0: p0 * unit,
        low: 40_000 * unit,
        high: 70_000 * unit,
        actlow: 45_000 * unit,
        acthigh: 65_000 * unit,
        demands: demands.map(|demand| demand * unit).to_vec(),
    };
    Case {
        mass_tolerance: MASS_TOLERANCE,
        pressure_tolerance: PRESSURE_TOLERANCE,
        times: vec![HOUR, 2 * HOUR],
        nodes: vec![
            node(SOURCE, 50_022, [30_050, 30_980]),
            node(INNER, 48_821, [0, 0]),
            node(INNER, 54_678, [0, 0]),
            node(SINK, 53_477, [-30_000, -31_200]),
        ],
        arcs: vec![pipe(0, STORAGES[0]), compressor(1), pipe(2, STORAGES[1])],
        stations: vec![Station {
            directions: vec![[1 << 1, 1 << 2, 0]],
            states: vec![[1, 1, 0, 0]],
            machines: vec![[31_000, 1_120]],
            ..Station::default()
        }],
    }
}

fn pipe(from: usize, c: i64) -> Arc {
    let mut more = [0; 7];
    (more[C], more[F], more[G]) = (c, FRICTION, FRICTION);
    arc(PIPE, from, more)
}

fn compressor(from: usize) -> Arc {
    let mut more = [0; 7];
    (more[ACTIVE], more[MACHINES], more[MOST]) = (1, 1, 1);
    arc(COMPRESSOR, from, more)
}

/// From a node to the one after it.
fn arc(kind: i64, from: usize, more: [i64; 7]) -> Arc {
    Arc {
        kind,
        from,
        to: from + 1,
        qmax: 40_000,
        more,
    }
}
