//! Edges of 10 to 12: every field of a case that has one of each kind, at each end of its range and one past it.

use super::{Branch, Edge, Expect};
use crate::aimed::refused;
use crate::model::{
    ACTIVE, COMBINED, F, G, H, INNER, MACHINES, MOST, OUT_BOUND, PIPE, Pair, SINK, SOURCE, WEIGHT,
};

/// A node of each kind, an arc of each kind, and a station with two directions, states and machines; two steps.
fn one_of_each() -> Pair {
    let mut branch = Branch::alone(&[10, 30], 100);
    branch.pair.case.pressure_tolerance = 10;
    for kind in [INNER, SOURCE, SINK] {
        let node = branch.node(kind, 50_000);
        let its = &mut branch.pair.case.nodes[node];
        (its.low, its.actlow, its.acthigh, its.high) = (40_000, 45_000, 55_000, 60_000);
    }
    let station = branch.station(&[[10, 1_500], [20, 2_500]]);
    let its = &mut branch.pair.case.stations[station];
    its.directions = vec![[0, 0, 5]; 2];
    its.states = vec![[3, 0, 0, 6]; 2];
    for kind in 0..=COMBINED {
        let arc = branch.arc(kind, 0, 1);
        let more = &mut branch.pair.case.arcs[arc].more;
        if kind == PIPE {
            (more[F], more[G], more[H]) = (7, 8, 9);
        }
        if kind > PIPE {
            (more[WEIGHT], more[ACTIVE]) = (4, 1);
        }
        if kind >= COMBINED - 1 {
            (more[MACHINES], more[MOST], more[OUT_BOUND]) = (3, 2, 60_000);
        }
    }
    branch.pair
}

/// The case with one field changed: `change` gives its new number and what is expected then.
fn each_field(change: impl Fn(i64, i64, usize) -> (i64, Expect)) -> Vec<Edge> {
    let pair = one_of_each();
    let (case, plan) = (pair.case.list(), pair.plan.list());
    let fields = pair.case.fields();
    let edge = |(place, field): (usize, &crate::model::Field)| {
        let mut case = case.clone();
        let (low, high) = (*field.range.start(), *field.range.end());
        let (number, expect) = change(low, high, place);
        case[place] = number;
        Edge {
            case,
            plan: plan.clone(),
            expect,
        }
    };
    fields.iter().enumerate().map(edge).collect()
}

fn out_of_range(place: usize) -> Expect {
    Expect::Refused(refused(11, 0, place))
}

pub fn edge_11_below() -> Vec<Edge> {
    each_field(|low, _, place| (low - 1, out_of_range(place)))
}

pub fn edge_11_above() -> Vec<Edge> {
    each_field(|_, high, place| (high + 1, out_of_range(place)))
}

/// A field at an end of its range passes 11; what comes of it then goes by the other fields, and the second checker says it.
pub fn edge_11_lowest() -> Vec<Edge> {
    each_field(|low, _, _| (low, Expect::Any))
}

pub fn edge_11_highest() -> Vec<Edge> {
    each_field(|_, high, _| (high, Expect::Any))
}

/// The case as it is, cut at every place, and with a number more.
pub fn edge_10_cut() -> Vec<Edge> {
    let pair = one_of_each();
    let (case, plan) = (pair.case.list(), pair.plan.list());
    let cut = |place: usize| Edge {
        case: case[..place].to_vec(),
        plan: plan.clone(),
        expect: Expect::Refused(refused(10, 0, place)),
    };
    (0..case.len()).map(cut).collect()
}

pub fn edge_12_one_more() -> Vec<Edge> {
    let pair = one_of_each();
    let (mut case, plan) = (pair.case.list(), pair.plan.list());
    let place = case.len();
    case.push(0);
    let expect = Expect::Refused(refused(12, 0, place));
    vec![Edge { case, plan, expect }]
}

/// Without it the case is accepted, and with a plan that is one number longer or shorter only the plan is refused.
pub fn edge_20_length() -> Vec<Edge> {
    let pair = one_of_each();
    let (case, plan) = (pair.case.list(), pair.plan.list());
    let longer = [plan.as_slice(), &[0]].concat();
    let shorter = plan[..plan.len() - 1].to_vec();
    let other_head = |place: usize| {
        let mut plan = plan.clone();
        plan[place] += 1;
        plan
    };
    let refusals = [longer, shorter, other_head(0), other_head(1), vec![]];
    let edge = |plan: Vec<i64>, expect: Expect| Edge {
        case: case.clone(),
        plan,
        expect,
    };
    let refused = Expect::Refused(refused(20, 0, 0));
    let refusals = refusals.into_iter().map(|plan| edge(plan, refused));
    let accepted = edge(plan.clone(), Expect::Accepted);
    refusals.chain([accepted]).collect()
}
