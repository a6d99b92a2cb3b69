//! The plan: its rows, question 20, and the order of the others; each group of rules is a module.

mod arcs;
mod nodes;
mod stations;
mod totals;

pub use arcs::rule_28_left_side;
pub use nodes::rule_33_left_side;

use crate::case::{self, Case, Kind, Machine, holds};
use crate::verdict::{Answer, Totals, ask};
use crate::wide;

/// A plan that answered question 20 with "yes", beside its case.
pub struct Plan<'a> {
    pub case: &'a Case,
    list: &'a [i64],
    /// How many numbers a step takes.
    width: usize,
}

struct NodeRow {
    p: i64,
    d: i64,
    s_plus: i64,
    s_minus: i64,
    u_plus: i64,
    u_minus: i64,
}

struct ArcRow {
    a: i64,
    b: i64,
    setting: i64,
    machines: i64,
}

struct StationRow {
    direction: i64,
    state: i64,
}

/// Judges a case list and a plan list.
pub fn judge(case_list: &[i64], plan_list: &[i64]) -> Answer<Totals> {
    let case = case::judge(case_list)?;
    let (_, totals) = judge_plan(&case, plan_list)?;
    Ok(totals)
}

/// Judges a plan list beside a judged case.
pub fn judge_plan<'a>(case: &'a Case, list: &'a [i64]) -> Answer<(Plan<'a>, Totals)> {
    let plan = rule_20_head_and_length(case, list)?;
    let mut totals = Totals {
        gas_at_start: plan.gas_of_all_pipes(0),
        ..Totals::default()
    };
    for step in 1..=case.spans.len() {
        judge_nodes(&plan, step)?;
        totals.residual += judge_arcs(&plan, step)?;
        judge_stations(&plan, step)?;
        totals.residual += judge_balances(&plan, step)?;
        totals.pressure_slack += totals::pressure_slack(&plan, step);
        totals.demand_slack += totals::demand_slack(&plan, step);
        totals.switching_cost += totals::switching_cost(&plan, step);
    }
    totals.gas_at_end = plan.gas_of_all_pipes(case.spans.len());
    Ok((plan, totals))
}

fn rule_20_head_and_length<'a>(case: &'a Case, list: &'a [i64]) -> Answer<Plan<'a>> {
    let steps = case.spans.len();
    let width = 6 * case.nodes.len() + 4 * case.arcs.len() + 2 * case.stations.len();
    let head = list.first() == Some(&1) && list.get(1) == Some(&(steps as i64));
    ask(20, head && list.len() == 2 + steps * width, 0, 0)?;
    Ok(Plan { case, list, width })
}

fn judge_nodes(plan: &Plan, step: usize) -> Answer<()> {
    for node in 0..plan.case.nodes.len() {
        let ask = |number, yes| ask(number, yes, step, node);
        ask(21, nodes::rule_21_node_numbers(plan, step, node))?;
        ask(22, nodes::rule_22_demand_is_met(plan, step, node))?;
        ask(23, nodes::rule_23_active_pressures(plan, step, node))?;
    }
    Ok(())
}

/// Gives the left sides of 28, summed.
fn judge_arcs(plan: &Plan, step: usize) -> Answer<i128> {
    let mut residual = 0;
    for arc in 0..plan.case.arcs.len() {
        let ask = |number, yes| ask(number, yes, step, arc);
        ask(24, arcs::rule_24_arc_numbers(plan, step, arc))?;
        ask(25, arcs::rule_25_no_flow_against(plan, step, arc))?;
        ask(26, arcs::rule_26_pressures(plan, step, arc))?;
        ask(27, arcs::rule_27_machines(plan, step, arc))?;
        let left = rule_28_left_side(plan, step, arc);
        ask(28, left <= wide(plan.case.mass_tolerance))?;
        ask(29, arcs::rule_29_end_pressures(plan, step, arc))?;
        residual += left;
    }
    Ok(residual)
}

fn judge_stations(plan: &Plan, step: usize) -> Answer<()> {
    for station in 0..plan.case.stations.len() {
        let ask = |number, yes| ask(number, yes, step, station);
        ask(30, stations::rule_30_choices(plan, step, station))?;
        ask(31, stations::rule_31_machines_once(plan, step, station))?;
        ask(32, stations::rule_32_fence_flows(plan, step, station))?;
    }
    Ok(())
}

/// Gives the left sides of 33, summed.
fn judge_balances(plan: &Plan, step: usize) -> Answer<i128> {
    let mut residual = 0;
    for node in 0..plan.case.nodes.len() {
        let left = rule_33_left_side(plan, step, node);
        ask(33, left <= wide(plan.case.mass_tolerance), step, node)?;
        residual += left;
    }
    Ok(residual)
}

impl Plan<'_> {
    fn step_start(&self, step: usize) -> usize {
        2 + (step - 1) * self.width
    }

    fn node(&self, step: usize, node: usize) -> NodeRow {
        let at = self.step_start(step) + 6 * node;
        let row = &self.list[at..at + 6];
        NodeRow {
            p: row[0],
            d: row[1],
            s_plus: row[2],
            s_minus: row[3],
            u_plus: row[4],
            u_minus: row[5],
        }
    }

    fn arc(&self, step: usize, arc: usize) -> ArcRow {
        let at = self.step_start(step) + 6 * self.case.nodes.len() + 4 * arc;
        let row = &self.list[at..at + 4];
        ArcRow {
            a: row[0],
            b: row[1],
            setting: row[2],
            machines: row[3],
        }
    }

    fn station(&self, step: usize, station: usize) -> StationRow {
        let rows_before = 6 * self.case.nodes.len() + 4 * self.case.arcs.len();
        let at = self.step_start(step) + rows_before + 2 * station;
        StationRow {
            direction: self.list[at],
            state: self.list[at + 1],
        }
    }

    /// Before step 1 a node has p0.
    fn pressure(&self, step: usize, node: usize) -> i64 {
        match step {
            0 => self.case.nodes[node].p0,
            _ => self.node(step, node).p,
        }
    }

    /// Before step 1 an arc has its activity at step 0.
    fn active(&self, step: usize, arc: usize) -> bool {
        match step {
            0 => self.case.arcs[arc]
                .artificial()
                .is_some_and(|artificial| artificial.active_at_0),
            _ => self.arc(step, arc).setting > 0,
        }
    }

    /// Before step 1 a station has its step-0 direction. Any number may come in here.
    fn direction(&self, step: usize, station: usize) -> Option<usize> {
        match step {
            0 => Some(self.case.stations[station].direction_at_0),
            _ => usize::try_from(self.station(step, station).direction).ok(),
        }
    }

    fn state(&self, step: usize, station: usize) -> Option<usize> {
        match step {
            0 => Some(self.case.stations[station].state_at_0),
            _ => usize::try_from(self.station(step, station).state).ok(),
        }
    }

    /// d, the actual boundary flow.
    pub fn boundary_flow(&self, step: usize, node: usize) -> i128 {
        wide(self.node(step, node).d)
    }

    /// Flow along the arc at its from end: a pipe's a, any other arc's a - b.
    pub fn flow_at_from(&self, step: usize, arc: usize) -> i128 {
        let row = self.arc(step, arc);
        match self.case.arcs[arc].kind {
            Kind::Pipe(_) => wide(row.a),
            _ => wide(row.a) - wide(row.b),
        }
    }

    /// Flow along the arc at its to end: a pipe's b, any other arc's a - b.
    pub fn flow_at_to(&self, step: usize, arc: usize) -> i128 {
        let row = self.arc(step, arc);
        match self.case.arcs[arc].kind {
            Kind::Pipe(_) => wide(row.b),
            _ => wide(row.a) - wide(row.b),
        }
    }

    /// c × (from + to) of a pipe, 0 of any other arc.
    pub fn gas(&self, step: usize, arc: usize) -> i128 {
        let arc = &self.case.arcs[arc];
        let Some(pipe) = arc.pipe() else { return 0 };
        wide(pipe.c) * (wide(self.pressure(step, arc.from)) + wide(self.pressure(step, arc.to)))
    }

    fn gas_of_all_pipes(&self, step: usize) -> i128 {
        (0..self.case.arcs.len())
            .map(|arc| self.gas(step, arc))
            .sum()
    }

    /// The machines of the arc's station that the arc's row names.
    fn machines(&self, step: usize, arc: usize) -> impl Iterator<Item = &Machine> {
        let named = self.arc(step, arc).machines;
        let station = self.case.arcs[arc]
            .artificial()
            .map(|artificial| &self.case.stations[artificial.station]);
        station
            .into_iter()
            .flat_map(|station| station.machines.iter().enumerate())
            .filter(move |(index, _)| holds(named, *index))
            .map(|(_, machine)| machine)
    }
}
