//! The five slips of earlier checkers.
//!
//! Each comes with an input that a checker with the slip cannot tell from another one,
//! though a right checker answers the two differently.

use crate::model::{
    ACTIVE, Arc, ArcRow, BOTH_WAYS, COMPRESSOR, Case, MACHINES, MOST, MOST_PRESSURE, Node, NodeRow,
    Pair, Plan, Station, StationRow, Step,
};
use crate::table_t::{C, P, with_tolerances};

/// Lists, with a node set and two steps for the ledger.
pub struct Input {
    pub case: Vec<i64>,
    pub plan: Vec<i64>,
    pub set: i64,
    pub s: i64,
    pub t: i64,
}

pub struct Slip {
    pub name: &'static str,
    pub input: Input,
    /// What the input looks like to a checker with the slip.
    pub seen_as: Input,
    /// Only the ledger's gas tells the two apart.
    pub in_ledger: bool,
}

pub fn slips() -> Vec<Slip> {
    vec![
        machines_per_arc(),
        out_from_to_node(),
        edge_gas_inside(),
        residuals_netted(),
        slacks_exchanged(),
    ]
}

/// Both nodes of the set, step 0 to step 1.
fn input(case: &[i64], plan: &[i64]) -> Input {
    Input {
        case: case.to_vec(),
        plan: plan.to_vec(),
        set: 3,
        s: 0,
        t: 1,
    }
}

fn lists(pair: &Pair) -> Input {
    input(&pair.case.list(), &pair.plan.list())
}

fn slip(name: &'static str, input: Input, seen_as: Input) -> Slip {
    Slip {
        name,
        input,
        seen_as,
        in_ledger: false,
    }
}

/// Two inner nodes, and compressors between them of which each may use both machines.
fn compressors(count: usize, p: [i64; 2], setting: i64, machines: [i64; 2]) -> Pair {
    let mut arc = Arc {
        kind: COMPRESSOR,
        from: 0,
        to: 1,
        ..Arc::default()
    };
    (arc.more[BOTH_WAYS], arc.more[ACTIVE]) = (1, 1);
    (arc.more[MACHINES], arc.more[MOST]) = (3, 1);
    let arc_row = |&machines: &i64| ArcRow {
        setting,
        machines,
        ..ArcRow::default()
    };
    let node_row = |p: i64| NodeRow {
        p,
        ..NodeRow::default()
    };
    Pair {
        case: Case {
            times: vec![60],
            nodes: vec![wide_node(40_000); 2],
            arcs: vec![arc; count],
            stations: vec![two_equal_machines()],
            ..Case::default()
        },
        plan: Plan {
            steps: vec![Step {
                nodes: p.map(node_row).to_vec(),
                arcs: machines[..count].iter().map(arc_row).collect(),
                stations: vec![StationRow::default()],
            }],
        },
    }
}

/// An inner node that may have any pressure.
fn wide_node(p0: i64) -> Node {
    Node {
        p0,
        high: MOST_PRESSURE,
        acthigh: MOST_PRESSURE,
        demands: vec![0],
        ..Node::default()
    }
}

fn two_equal_machines() -> Station {
    Station {
        directions: vec![[0; 3]],
        states: vec![[1, 0, 0, 0]],
        machines: vec![[0, 1_500]; 2],
        ..Station::default()
    }
}

/// Counted arc by arc, a machine on two arcs is like two machines of the same rating.
fn machines_per_arc() -> Slip {
    let shared = compressors(2, [40_000, 50_000], 1, [1, 1]);
    let separate = compressors(2, [40_000, 50_000], 1, [1, 2]);
    let name = "machines counted per arc only";
    slip(name, lists(&shared), lists(&separate))
}

/// Measured at the to node, the out pressure of a backward arc is that of its in end.
fn out_from_to_node() -> Slip {
    let too_high = compressors(1, [60_001, 40_000], 2, [1, 0]);
    let level = compressors(1, [40_000, 40_000], 2, [1, 0]);
    let name = "out pressure measured from the to node on a backward arc";
    slip(name, lists(&too_high), lists(&level))
}

/// With its gas counted, an edge pipe is like a pipe inside the set.
fn edge_gas_inside() -> Slip {
    Slip {
        in_ledger: true,
        ..slip(
            "gas of an edge pipe counted inside a set",
            Input {
                set: 2,
                ..input(&C, &P)
            },
            input(&C, &P),
        )
    }
}

/// Too much at one node and too little at the other, netted, is no residual at all.
fn residuals_netted() -> Slip {
    let mut case = with_tolerances(60, 0);
    let mut plan = P;
    let seen_as = input(&case, &plan);
    // Demands and boundary flows of the source and of the sink.
    (case[14], plan[3]) = (1101, 1101);
    (case[21], plan[9]) = (-901, -901);
    slip("residuals netted by sign", input(&case, &plan), seen_as)
}

/// A slack of 5 at the source, taken the wrong way round, no longer meets the demand.
fn slacks_exchanged() -> Slip {
    let mut case = C;
    case[14] = 1105;
    let (mut plan, mut exchanged) = (P, P);
    plan[4] = 5;
    exchanged[5] = 5;
    let name = "the two demand slacks taken with each other's sign";
    slip(name, input(&case, &plan), input(&case, &exchanged))
}
