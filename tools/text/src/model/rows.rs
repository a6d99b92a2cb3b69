//! The rows of a case: nodes, arcs, stations and what these have.

use super::{COMBINED, COMPRESSOR, PIPE, SHORTCUT, VALVE};

pub struct Node {
    pub kind: i64,
    /// The pressure at time 0.
    pub p0: i64,
    pub low: i64,
    pub high: i64,
    pub actlow: i64,
    pub acthigh: i64,
    /// D of each step, step 1 first.
    pub demands: Vec<i64>,
}

pub struct Arc {
    pub kind: i64,
    pub from: usize,
    pub to: usize,
    pub qmax: i64,
    more: [i64; 7],
}

pub struct Station {
    pub direction_at_0: i64,
    pub state_at_0: i64,
    pub directions: Vec<Direction>,
    pub states: Vec<State>,
    pub machines: Vec<Machine>,
}

#[derive(Clone, Copy)]
pub struct Direction {
    pub entry: i64,
    pub exit: i64,
    pub weight: i64,
}

#[derive(Clone, Copy)]
pub struct State {
    pub directions: i64,
    pub on: i64,
    pub off: i64,
    pub weight: i64,
}

#[derive(Clone, Copy)]
pub struct Machine {
    pub flow: i64,
    pub ratio: i64,
}

/// What is left of a list.
pub(super) struct Rows<'a> {
    pub(super) list: &'a [i64],
}

impl Rows<'_> {
    pub(super) fn one(&mut self) -> Option<i64> {
        let (first, rest) = self.list.split_first()?;
        self.list = rest;
        Some(*first)
    }

    pub(super) fn take<const COUNT: usize>(&mut self) -> Option<[i64; COUNT]> {
        let (first, rest) = self.list.split_first_chunk()?;
        self.list = rest;
        Some(*first)
    }
}

pub(super) fn several<T>(count: i64, mut row: impl FnMut() -> Option<T>) -> Option<Vec<T>> {
    (0..count).map(|_| row()).collect()
}

impl Node {
    pub(super) fn of(rows: &mut Rows, steps: i64) -> Option<Node> {
        let [kind, p0, low, high, actlow, acthigh] = rows.take()?;
        Some(Node {
            kind,
            p0,
            low,
            high,
            actlow,
            acthigh,
            demands: several(steps, || rows.one())?,
        })
    }

    /// D of a step, 0 where there is no such step.
    pub fn demand(&self, step: usize) -> i64 {
        let at = step.wrapping_sub(1);
        self.demands.get(at).copied().unwrap_or(0)
    }
}

impl Arc {
    pub(super) fn of(rows: &mut Rows) -> Option<Arc> {
        let [kind, from, to, qmax] = rows.take()?;
        let arc = Arc {
            kind,
            from: usize::try_from(from).ok()?,
            to: usize::try_from(to).ok()?,
            qmax,
            more: rows.take()?,
        };
        let station_fits = kind < SHORTCUT || arc.more[0] >= 0;
        ((VALVE..=COMBINED).contains(&kind) && station_fits).then_some(arc)
    }

    pub fn is_pipe(&self) -> bool {
        self.kind == PIPE
    }

    /// The station of an artificial arc.
    pub fn station(&self) -> Option<usize> {
        (self.kind >= SHORTCUT).then_some(self.more[0] as usize)
    }

    pub fn has_machines(&self) -> bool {
        self.kind >= COMPRESSOR
    }

    /// c, f, g and h of a pipe.
    pub fn pipe(&self) -> Option<[i64; 4]> {
        let [c, f, g, h, ..] = self.more;
        self.is_pipe().then_some([c, f, g, h])
    }

    /// Of an artificial arc.
    pub fn both_ways(&self) -> bool {
        self.more[1] == 1
    }

    pub fn active_at_0(&self) -> bool {
        self.kind >= SHORTCUT && self.more[3] == 1
    }

    /// Machine set of a compressor or combined arc.
    pub fn machine_set(&self) -> i64 {
        self.more[4]
    }

    pub fn most_machines(&self) -> i64 {
        self.more[5]
    }

    /// None where the field is 0, which stands for acthigh of the out end.
    pub fn out_bound(&self) -> Option<i64> {
        Some(self.more[6]).filter(|&bound| bound != 0)
    }
}

impl Station {
    pub(super) fn of(rows: &mut Rows) -> Option<Station> {
        let [directions, states, machines, direction_at_0, state_at_0] = rows.take()?;
        Some(Station {
            direction_at_0,
            state_at_0,
            directions: several(directions, || {
                let [entry, exit, weight] = rows.take()?;
                Some(Direction {
                    entry,
                    exit,
                    weight,
                })
            })?,
            states: several(states, || {
                let [directions, on, off, weight] = rows.take()?;
                Some(State {
                    directions,
                    on,
                    off,
                    weight,
                })
            })?,
            machines: several(machines, || {
                let [flow, ratio] = rows.take()?;
                Some(Machine { flow, ratio })
            })?,
        })
    }
}
