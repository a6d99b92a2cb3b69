//! Inputs at the edges of each question: the last number that passes and the first that does not, the last arc, node, machine, step and row.
//!
//! Each is made in every round, whatever the seed; the seed only says what it stands beside. A name begins with the question that the input is at.

mod arcs;
mod branch;
mod case;
mod empty_bounds;
mod fields;
mod groups;
mod known;
mod largest;
mod machines;
mod nodes;
mod pipes;
mod reach;
mod records;
mod settlement;
mod stations;
mod table;
mod table_of_compressing;
mod turned;

use branch::Branch;
pub use groups::{ReadEdge, WriteEdge, numbers_of_every_width};
pub use known::LEDGER_EDGES;
pub use records::RECORD_EDGES;
pub use settlement::SETTLE_EDGES;
pub use table::{EDGES, EDGES_OF_FIELDS, READ_EDGES, WRITE_EDGES};
pub use table_of_compressing::EDGES_OF_COMPRESSING;

use crate::model::{Pair, Refused};
use crate::rng::Rng;

/// What an input is to be answered.
#[derive(Clone, Copy, Debug)]
pub enum Expect {
    /// What the second checker says.
    Any,
    /// Whatever the totals are.
    Accepted,
    /// With these totals, or these figures of a ledger.
    Totals([i64; 6]),
    /// With these figures of a settlement.
    Settled([i64; 5]),
    Refused(Refused),
}

/// A case list and a plan list with their answer.
pub struct Edge {
    pub case: Vec<i64>,
    pub plan: Vec<i64>,
    pub expect: Expect,
}

/// The edge as it is, and with the items of its case in the opposite order.
pub type Both = [Edge; 2];

/// The same with a node set and two steps.
pub struct LedgerEdge {
    pub case: Vec<i64>,
    pub plan: Vec<i64>,
    pub set: i64,
    pub s: i64,
    pub t: i64,
    pub expect: Expect,
}

/// Two records and an agreed figure with their answer.
pub struct SettleEdge {
    pub sender: Vec<i64>,
    pub receiver: Vec<i64>,
    pub agreed: i64,
    pub expect: Expect,
}

pub type EdgeOf = fn(&mut Rng, &Pair) -> Both;
pub type EdgesOf = fn() -> Vec<Edge>;
pub type LedgerEdgeOf = fn() -> [LedgerEdge; 2];

pub type SettleEdgesOf = fn() -> Vec<SettleEdge>;

pub type ReadEdgesOf = fn() -> Vec<ReadEdge>;
pub type WriteEdgesOf = fn() -> Vec<WriteEdge>;
