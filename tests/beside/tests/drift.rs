//! Plans of 12 and more steps whose pressures drift from p0, on the library beside the second checker. Document 01 took p0 of the in end
//! in 26: it would refuse many of those that are accepted, and pass them where a change has put the out pressure past what p reaches.

use std::io::{Write, stdout};

use beside::library;
use harness::{Beside, Difference};
use inputs::counts::{Counts, note, seldom};
use inputs::generate::accepted;
use inputs::model::{
    COMBINED, INNER, MOST_PRESSURE, OUT_BOUND, PIPE, Pair, REGULATING, REGULATOR, is_backward,
};
use inputs::reach::{named_machines, overreach, overreach_from_p0, ratio, take_machines};
use inputs::{Refused, Rng};

const PAIRS: u64 = 30_000;

/// Steps of a long horizon.
const LONG: usize = 12;

/// A pressure that came to be further from p0 than this has drifted.
const FAR: i64 = 10_000;

const SIX_HOURS: i64 = 21_600;

/// Each thing has to occur in so many pairs.
const LEAST: u64 = 20;

const WAYS: [(&str, bool); 2] = [("forward", false), ("backward", true)];

/// An arc in a step in which it compresses.
struct Row {
    step: usize,
    arc: usize,
    backward: bool,
    idle: bool,
    time: i64,
    /// How far the in end's pressure has drifted from p0.
    drift: i64,
    over: i64,
    over_from_p0: i64,
}

fn row(pair: &Pair, step: usize, arc: usize) -> Option<Row> {
    let (in_end, _) = pair.ends(step, arc);
    let it = pair.arc(step, arc);
    Some(Row {
        step,
        arc,
        backward: is_backward(it.setting),
        idle: it.machines == 0,
        time: pair.case.times[step - 1],
        over: overreach(pair, step, arc)?,
        over_from_p0: overreach_from_p0(pair, step, arc)?,
        drift: drift(pair, step, in_end),
    })
}

fn rows(pair: &Pair) -> Vec<Row> {
    let arcs = |step| (0..pair.case.arcs.len()).map(move |arc| (step, arc));
    let all = (1..=pair.steps()).flat_map(arcs);
    all.filter_map(|(step, arc)| row(pair, step, arc)).collect()
}

/// A node's pressure less p0, or 0 if more than a third of that came in one step: a drift takes three steps at least.
fn drift(pair: &Pair, step: usize, node: usize) -> i64 {
    let drift = pair.pressure(step, node) - pair.case.nodes[node].p0;
    let change = |step| pair.pressure(step, node) - pair.pressure(step - 1, node);
    let leaps = (1..=step).any(|step| 3 * i64::abs(change(step)) > drift.abs());
    if leaps { 0 } else { drift }
}

/// Notes how an accepted pair has drifted, and where p0 would have 26 refuse it.
fn note_accepted(counts: &mut Counts, rows: &[Row]) {
    let mut note = |name: String, test: &dyn Fn(&Row) -> bool| {
        note(counts, format!("accepted, {name}"), rows.iter().any(test));
    };
    for (way, backward) in WAYS {
        let risen = |row: &Row| row.backward == backward && row.drift > FAR;
        let fallen = |row: &Row| row.backward == backward && row.drift < -FAR;
        note(format!("{way}, risen"), &risen);
        note(format!("{way}, fallen"), &fallen);
        note(format!("{way}, fallen, idle"), &|row| {
            fallen(row) && row.idle
        });
        let refused = |row: &Row| risen(row) && row.over_from_p0 > 0;
        note(format!("{way}, p0 refuses, idle"), &|row| {
            refused(row) && row.idle
        });
        note(format!("{way}, p0 refuses, with machines"), &|row| {
            refused(row) && !row.idle
        });
        note(format!("{way}, p0 refuses, exact with machines"), &|row| {
            refused(row) && !row.idle && row.over == 0
        });
        note(format!("{way}, p0 refuses, past six hours"), &|row| {
            refused(row) && row.time > SIX_HOURS
        });
    }
}

type Which = fn(&Row) -> bool;
type Change = fn(&Pair, &Row) -> Option<Pair>;

/// What is changed in which rows.
const CHANGES: [(&str, Which, Change); 5] = [
    (
        "forward, fewer machines",
        |row| !row.backward,
        fewer_machines,
    ),
    (
        "backward, fewer machines",
        |row| row.backward,
        fewer_machines,
    ),
    ("forward, out raised", |row| !row.backward, raise_out),
    ("backward, out raised", |row| row.backward, raise_out),
    ("idle, out raised", |row| row.idle, raise_out),
];

/// Takes machines away until the others don't reach the out pressure, if they carry the flow.
fn fewer_machines(pair: &Pair, row: &Row) -> Option<Pair> {
    let mut changed = pair.clone();
    take_machines(&mut changed, row.step, row.arc)?;
    let flow = pair.arc(row.step, row.arc).a + pair.arc(row.step, row.arc).b;
    let left = named_machines(&changed, row.step, row.arc).map(|[flow, _]| flow);
    (flow <= left.sum()).then_some(changed)
}

/// Raises the out pressure to the first mbar that isn't reached, and bounds with it, if nothing else hangs on it.
fn raise_out(pair: &Pair, row: &Row) -> Option<Pair> {
    let (in_end, out_end) = pair.ends(row.step, row.arc);
    let out = pair.pressure(row.step, in_end) * ratio(pair, row.step, row.arc) / 1_000 + 1;
    if out > MOST_PRESSURE || !is_free(pair, row, out_end) {
        return None;
    }
    let mut changed = pair.clone();
    changed.case.arcs[row.arc].more[OUT_BOUND] = MOST_PRESSURE;
    let node = &mut changed.case.nodes[out_end];
    node.high = node.high.max(out);
    let slack = match node.kind {
        INNER => 0,
        _ => out - node.acthigh,
    };
    let it = changed.node_mut(row.step, out_end);
    (it.p, it.u_minus) = (out, it.u_minus.max(slack));
    Some(changed)
}

/// May this node have a higher pressure, as far as its other arcs go? They are off or regulate away from it, and none is a pipe.
fn is_free(pair: &Pair, row: &Row, node: usize) -> bool {
    let arcs = pair.case.arcs.iter().enumerate();
    let mut others = arcs.filter(|&(arc, it)| arc != row.arc && (it.from == node || it.to == node));
    others.all(|(arc, it)| {
        let setting = pair.arc(row.step, arc).setting;
        let away = it.ends(setting).0 == node;
        match it.kind {
            PIPE => false,
            REGULATOR => away,
            REGULATING | COMBINED => setting == 0 || (away && !it.compresses(setting)),
            _ => setting == 0,
        }
    })
}

/// The changed pair, if p0 would reach in every row: then nothing refuses it but 26 by p.
fn past_p_alone(pair: &Pair, row: &Row, change: Change) -> Option<Pair> {
    let changed = change(pair, row)?;
    let p0_passes = rows(&changed).iter().all(|row| row.over_from_p0 <= 0);
    p0_passes.then_some(changed)
}

/// Makes each change in a row whose in end has fallen: 26 is to refuse the pair there.
fn judge_changed(
    beside: &mut Beside,
    counts: &mut Counts,
    rng: &mut Rng,
    pair: &Pair,
    rows: &[Row],
) -> Result<(), Difference> {
    for (name, which, change) in CHANGES {
        let fallen = rows.iter().filter(|row| row.drift < -FAR && which(row));
        let mut fallen: Vec<&Row> = fallen.collect();
        rng.shuffle(&mut fallen);
        let mut changed = fallen
            .into_iter()
            .filter_map(|row| Some((row, past_p_alone(pair, row, change)?)));
        let found = changed.next();
        note(
            counts,
            format!("refused, p0 passes, {name}"),
            found.is_some(),
        );
        if let Some((row, changed)) = found {
            let expect = Refused {
                number: 26,
                step: row.step,
                place: row.arc,
            };
            let reply = beside.plan(&changed.case.list(), &changed.plan.list())?;
            reply.expect(expect, name)?;
        }
    }
    Ok(())
}

/// The pair as it is, which is to be accepted, and what becomes of it.
fn judge_drift(beside: &mut Beside, counts: &mut Counts, seed: u64) -> Result<(), Difference> {
    let mut rng = Rng::new(seed);
    let pair = accepted(&mut rng);
    let long = pair.steps() >= LONG;
    note(counts, "of 12 and more steps".to_string(), long);
    if !long {
        return Ok(());
    }
    let reply = beside.plan(&pair.case.list(), &pair.plan.list())?;
    assert_eq!(reply.answer, 0, "seed {seed}: {reply:?}");
    let rows = rows(&pair);
    note_accepted(counts, &rows);
    judge_changed(beside, counts, &mut rng, &pair, &rows)
}

#[test]
fn p_decides_where_p0_would_err() {
    let mut beside = Beside::new(library::judge());
    let mut counts = Counts::new();
    for seed in 0..PAIRS {
        if let Err(difference) = judge_drift(&mut beside, &mut counts, seed) {
            panic!("seed {seed}: {difference}");
        }
    }
    let lines = counts
        .iter()
        .map(|(name, count)| format!("{count:>6} {name}\n"));
    let shown = write!(
        stdout(),
        "\nin {PAIRS} pairs\n{}",
        lines.collect::<String>()
    );
    assert!(shown.is_ok());
    let seldom = seldom(&counts, LEAST);
    assert!(seldom.is_empty(), "{seldom:?}");
}
