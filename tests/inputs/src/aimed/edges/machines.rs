//! Edges of 26 and 27 at arcs that compress, forward and backward.

use super::{Both, Branch};
use crate::model::{
    ArcRow, COMBINED, COMPRESSOR, MACHINES, MOST, OUT_BOUND, Pair, SINK, SOURCE, is_backward,
};
use crate::rng::Rng;

/// A compressing arc, the last one, at every limit: the out pressure is what the machines reach from the in pressure, as many machines as may run do,
/// and the flow is all that they carry. From p0 of the in end, which is 1 mbar below its pressure, they would not reach it.
pub struct Compression {
    pub branch: Branch,
    pub in_end: usize,
    pub out_end: usize,
    pub arc: usize,
    pub out: i64,
    /// In thousandths.
    pub ratio: i64,
    flow: i64,
    backward: bool,
}

/// The first and the last of three machines.
const RUNNING: i64 = 5;

/// The row of an arc that compresses, with its flow the way of the setting.
fn running(flow: i64, setting: i64) -> ArcRow {
    let (a, b) = match is_backward(setting) {
        true => (0, flow),
        false => (flow, 0),
    };
    ArcRow {
        a,
        b,
        setting,
        machines: RUNNING,
    }
}

impl Compression {
    pub fn new(rng: &mut Rng, pair: &Pair, backward: bool) -> Compression {
        let machines = [0; 3].map(|_| [rng.within(1..=1_000), rng.within(1_001..=3_000)]);
        let thousands = rng.within(1..=39);
        let ratio = machines[0][1] + machines[2][1] - 1_000;
        let out = thousands * ratio;
        let flow = machines[0][0] + machines[2][0];
        let mut branch = Branch::beside(pair, 2, 1, 1);
        let in_end = branch.node(SOURCE, 1_000 * thousands);
        let out_end = branch.node(SINK, out);
        branch.pair.case.nodes[in_end].p0 -= 1;
        branch.supply(in_end, flow);
        branch.supply(out_end, -flow);
        branch.station(&machines);
        let (kind, forth) = [(COMPRESSOR, 1), (COMBINED, 3)][rng.below(2)];
        let (from, to) = match backward {
            true => (out_end, in_end),
            false => (in_end, out_end),
        };
        let arc = branch.arc(kind, from, to);
        let more = &mut branch.pair.case.arcs[arc].more;
        (more[MACHINES], more[MOST]) = (7, 2);
        branch.run(arc, running(flow, forth + i64::from(backward)));
        Compression {
            branch,
            in_end,
            out_end,
            arc,
            out,
            ratio,
            flow,
            backward,
        }
    }

    pub fn refused(&self, number: u8, step: usize) -> Both {
        self.branch.refused(number, step, self.arc)
    }

    /// Another p0 of the in end.
    pub fn with_p0(mut self, p0: i64) -> Self {
        self.branch.pair.case.nodes[self.in_end].p0 = p0;
        self
    }

    /// Other pressures of the in and the out end, in one step.
    pub fn with_pressures(mut self, step: usize, [p_in, p_out]: [i64; 2]) -> Self {
        self.branch.pair.node_mut(step, self.in_end).p = p_in;
        self.branch.pair.node_mut(step, self.out_end).p = p_out;
        self
    }

    /// These pressures of the in and the out end in every step.
    pub fn held(mut self, pressures: [i64; 2]) -> Self {
        for step in 1..=self.branch.steps() {
            self = self.with_pressures(step, pressures);
        }
        self
    }

    /// 1 mbar more at the out end, in the last step; from p0 the machines would reach it.
    fn above(self) -> Both {
        let steps = self.branch.steps();
        let (p_in, out) = (self.branch.pair.node(steps, self.in_end).p, self.out);
        let above = self.with_p0(p_in + 1);
        let above = above.with_pressures(steps, [p_in, out + 1]);
        above.refused(26, steps)
    }

    pub fn with_out_bound(mut self, bound: i64) -> Self {
        self.branch.pair.case.arcs[self.arc].more[OUT_BOUND] = bound;
        self
    }

    /// 1 g/s more, in the last step.
    fn with_more_flow(mut self) -> Both {
        let (steps, flow) = (self.branch.steps(), self.flow + 1);
        let row = self.branch.pair.arc_mut(steps, self.arc);
        *(if self.backward {
            &mut row.b
        } else {
            &mut row.a
        }) = flow;
        self.refused(27, steps)
    }
}

pub fn edge_26_ratio(rng: &mut Rng, pair: &Pair) -> Both {
    Compression::new(rng, pair, false).branch.accepted()
}

pub fn edge_26_ratio_backward(rng: &mut Rng, pair: &Pair) -> Both {
    Compression::new(rng, pair, true).branch.accepted()
}

pub fn edge_26_past_the_ratio(rng: &mut Rng, pair: &Pair) -> Both {
    Compression::new(rng, pair, false).above()
}

pub fn edge_26_past_the_ratio_backward(rng: &mut Rng, pair: &Pair) -> Both {
    Compression::new(rng, pair, true).above()
}

pub fn edge_26_at_the_out_bound(rng: &mut Rng, pair: &Pair) -> Both {
    let at = Compression::new(rng, pair, true);
    let out = at.out;
    at.with_out_bound(out).branch.accepted()
}

pub fn edge_26_past_the_out_bound(rng: &mut Rng, pair: &Pair) -> Both {
    let at = Compression::new(rng, pair, false);
    let out = at.out;
    at.with_out_bound(out - 1).refused(26, 1)
}

pub fn edge_26_past_the_out_bound_backward(rng: &mut Rng, pair: &Pair) -> Both {
    let at = Compression::new(rng, pair, true);
    let out = at.out;
    at.with_out_bound(out - 1).refused(26, 1)
}

/// Level, in and out have the same pressure; the arc may compress then, and not with 1 mbar less at the out end.
fn level(rng: &mut Rng, pair: &Pair) -> Compression {
    let level = Compression::new(rng, pair, false);
    let out = level.out;
    level.held([out, out])
}

pub fn edge_26_compressing_level(rng: &mut Rng, pair: &Pair) -> Both {
    level(rng, pair).branch.accepted()
}

pub fn edge_26_compressing_1_down(rng: &mut Rng, pair: &Pair) -> Both {
    let mut level = level(rng, pair);
    let steps = level.branch.steps();
    level.branch.pair.node_mut(steps, level.in_end).p += 1;
    level.refused(26, steps)
}

pub fn edge_27_most_passed(rng: &mut Rng, pair: &Pair) -> Both {
    let mut over = Compression::new(rng, pair, false);
    over.branch.pair.case.arcs[over.arc].more[MOST] = 1;
    over.refused(27, 1)
}

pub fn edge_27_flow_passed(rng: &mut Rng, pair: &Pair) -> Both {
    Compression::new(rng, pair, false).with_more_flow()
}

pub fn edge_27_flow_passed_backward(rng: &mut Rng, pair: &Pair) -> Both {
    Compression::new(rng, pair, true).with_more_flow()
}

/// A combined arc that could compress, and regulates between equal pressures.
pub fn regulating(rng: &mut Rng, pair: &Pair) -> Compression {
    let mut idle = level(rng, pair);
    for step in 1..=idle.branch.steps() {
        let row = idle.branch.pair.arc_mut(step, idle.arc);
        (row.setting, row.machines) = (1, 0);
    }
    idle.branch.pair.case.arcs[idle.arc].kind = COMBINED;
    idle
}

/// It has a machine, in the last step.
pub fn edge_27_machine_of_an_arc_that_regulates(rng: &mut Rng, pair: &Pair) -> Both {
    let mut idle = regulating(rng, pair);
    let steps = idle.branch.steps();
    idle.branch.pair.arc_mut(steps, idle.arc).machines = 1;
    idle.refused(27, steps)
}
