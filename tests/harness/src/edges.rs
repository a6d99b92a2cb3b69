//! The inputs at the edges of each question, every one of them for every seed.

use inputs::aimed::edges::{
    EDGES, EDGES_OF_COMPRESSING, EDGES_OF_FIELDS, Edge, Expect, LEDGER_EDGES, LedgerEdge,
    READ_EDGES, RECORD_EDGES, ReadEdge, SETTLE_EDGES, SettleEdge, WRITE_EDGES,
};
use inputs::bytes::{Encoded, encode, on_plan_bytes};
use inputs::generate;
use inputs::{Pair, Rng};

use crate::beside::{Beside, Difference, Reply};

/// An edge that was answered otherwise, and what the first difference was.
#[derive(Debug)]
pub struct Wrong {
    pub name: &'static str,
    pub rounds: u64,
    pub first: String,
}

/// Every edge for every seed; those that are answered otherwise in some round.
pub fn wrong(beside: &mut Beside, seeds: u64) -> Vec<Wrong> {
    let mut wrong = codec(beside, seeds);
    for &(name, edges) in EDGES_OF_FIELDS {
        let ask = |beside: &mut Beside, _: &mut Rng, _: &Pair| {
            edges().iter().try_for_each(|edge| plan(beside, edge, name))
        };
        wrong.extend(differences(beside, name, seeds, ask));
    }
    for &(name, edge) in EDGES.iter().chain(EDGES_OF_COMPRESSING) {
        let ask = |beside: &mut Beside, rng: &mut Rng, pair: &Pair| {
            let mut both = edge(rng, pair).into_iter();
            both.try_for_each(|edge| plan(beside, &edge, name))
        };
        wrong.extend(differences(beside, name, seeds, ask));
    }
    for &(name, edge) in LEDGER_EDGES {
        let ask = |beside: &mut Beside, _: &mut Rng, _: &Pair| {
            let mut both = edge().into_iter();
            both.try_for_each(|edge| ledger(beside, &edge, name))
        };
        wrong.extend(differences(beside, name, seeds, ask));
    }
    wrong.extend(settling(beside, seeds));
    wrong
}

/// The edges of records and of their settlement.
fn settling(beside: &mut Beside, seeds: u64) -> Vec<Wrong> {
    let mut wrong = Vec::new();
    for &(name, edges) in RECORD_EDGES.iter().chain(SETTLE_EDGES) {
        let ask = |beside: &mut Beside, _: &mut Rng, _: &Pair| {
            let edges = edges();
            edges.iter().try_for_each(|edge| settle(beside, edge, name))
        };
        wrong.extend(differences(beside, name, seeds, ask));
    }
    wrong
}

/// The edges of reading and writing.
fn codec(beside: &mut Beside, seeds: u64) -> Vec<Wrong> {
    let mut wrong = Vec::new();
    for &(name, edges) in READ_EDGES {
        let ask = |beside: &mut Beside, _: &mut Rng, pair: &Pair| {
            let case = encode(&pair.case.list());
            edges()
                .iter()
                .try_for_each(|edge| read(beside, edge, &case, name))
        };
        wrong.extend(differences(beside, name, seeds, ask));
    }
    for &(name, edges) in WRITE_EDGES {
        let ask = |beside: &mut Beside, _: &mut Rng, _: &Pair| {
            edges().iter().try_for_each(|edge| {
                let reply = beside.write(&edge.list, edge.room)?;
                expect(&reply, edge.expect, name)
            })
        };
        wrong.extend(differences(beside, name, seeds, ask));
    }
    wrong
}

/// In how many rounds this edge is answered otherwise.
fn differences(
    beside: &mut Beside,
    name: &'static str,
    seeds: u64,
    ask: impl Fn(&mut Beside, &mut Rng, &Pair) -> Result<(), Difference>,
) -> Option<Wrong> {
    let found: Vec<Difference> = (0..seeds)
        .filter_map(|seed| {
            beside.begin(seed);
            let mut rng = Rng::new(seed);
            let pair = generate::accepted(&mut rng);
            ask(beside, &mut rng, &pair).err()
        })
        .collect();
    let first = found.first()?.text.clone();
    Some(Wrong {
        name,
        rounds: found.len() as u64,
        first,
    })
}

/// Reads the bytes alone, then as a case's bytes, then as plan bytes after an accepted case: there 1 to 3 become 5 to 7.
fn read(
    beside: &mut Beside,
    edge: &ReadEdge,
    case: &Encoded,
    name: &str,
) -> Result<(), Difference> {
    let reply = beside.read(&edge.bytes, edge.room)?;
    expect(&reply, edge.expect, name)?;
    // What is read whole ends in what the judging says of it.
    let Expect::Refused(refused) = edge.expect else {
        return Ok(());
    };
    let reply = beside.bytes([&edge.bytes, &[]], [edge.room, 0])?;
    reply.expect(refused, name)?;
    let rooms = [case.starts.len(), edge.room];
    let reply = beside.bytes([&case.bytes, &edge.bytes], rooms)?;
    reply.expect(on_plan_bytes(refused), name)
}

fn plan(beside: &mut Beside, edge: &Edge, name: &str) -> Result<(), Difference> {
    let case = beside.case(&edge.case)?;
    let reply = beside.plan(&edge.case, &edge.plan)?;
    if reply.answer == 0 || reply.answer >= 20 {
        expect(&case, Expect::Accepted, name)?;
    }
    expect(&reply, edge.expect, name)
}

fn ledger(beside: &mut Beside, edge: &LedgerEdge, name: &str) -> Result<(), Difference> {
    let reply = beside.ledger([&edge.case, &edge.plan], edge.set, edge.s, edge.t)?;
    expect(&reply, edge.expect, name)
}

fn settle(beside: &mut Beside, edge: &SettleEdge, name: &str) -> Result<(), Difference> {
    let reply = beside.settle([&edge.sender, &edge.receiver], edge.agreed)?;
    expect(&reply, edge.expect, name)
}

/// Is this the answer that the edge is to have?
fn expect(reply: &Reply, expect: Expect, name: &str) -> Result<(), Difference> {
    let wanted = match expect {
        Expect::Refused(refused) => return reply.expect(refused, name),
        Expect::Any => return Ok(()),
        Expect::Accepted => &[],
        Expect::Totals(ref totals) => totals.as_slice(),
        Expect::Settled(ref figures) => figures.as_slice(),
    };
    if reply.answer == 0 && reply.out.starts_with(wanted) {
        return Ok(());
    }
    Err(Difference {
        text: format!("edge {name}: wanted {expect:?}, the second checker says {reply:?}"),
    })
}
