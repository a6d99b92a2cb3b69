//! The calls that are made with an edit: those of the library, the program, and four functions by themselves.

use case::read::node;
use checker::main as program;
use gasplan::codec::{gasplan_read, gasplan_write};
use gasplan::judge::{gasplan_case, gasplan_judge, gasplan_judge_bytes};
use gasplan::ledger::gasplan_ledger;
use gasplan::meters::gasplan_settle;
use harness::Judge;
use inputs::Rng;
use inputs::damage::any_list;
use numbers::answer::{ask, or_else};
use numbers::compare::{at, at_most, index, same};
use numbers::lists::copy;

use crate::edited::Edited;

/// The library and the program as a judge.
pub fn judge(edited: &Edited) -> Judge {
    let [read, write, case] =
        ["gasplan_read", "gasplan_write", "gasplan_case"].map(|call| edited.named(call));
    let [plan, bytes, ledger] =
        ["gasplan_judge", "gasplan_judge_bytes", "gasplan_ledger"].map(|call| edited.named(call));
    let [settle, line] = ["gasplan_settle", "the program"].map(|call| edited.named(call));
    Judge {
        read: Some(Box::new(move |bytes, list, out| {
            read.lent([list, out], &mut [], |[list, out], _| {
                gasplan_read(bytes, list, out)
            })
        })),
        write: Some(Box::new(move |list, bytes, out| {
            write.lent([out], bytes, |[out], bytes| gasplan_write(list, bytes, out))
        })),
        case: Some(Box::new(move |list, out| {
            case.lent([out], &mut [], |[out], _| gasplan_case(list, out))
        })),
        plan: Some(Box::new(move |case, list, out| {
            plan.lent([out], &mut [], |[out], _| gasplan_judge(case, list, out))
        })),
        bytes: Some(Box::new(move |case, plan, cases, plans, out| {
            bytes.lent([cases, plans, out], &mut [], |[cases, plans, out], _| {
                gasplan_judge_bytes(case, plan, cases, plans, out)
            })
        })),
        ledger: Some(Box::new(move |case, plan, set, s, t, out| {
            ledger.lent([out], &mut [], |[out], _| {
                gasplan_ledger(case, plan, set, s, t, out)
            })
        })),
        settle: Some(Box::new(move |sender, receiver, agreed, out| {
            settle.lent([out], &mut [], |[out], _| {
                gasplan_settle(sender, receiver, agreed, out)
            })
        })),
        line: Some(Box::new(move |case, plan| {
            let words = |edited: &String, line: &String| format!("prints {edited:?}, for {line:?}");
            let held = line.held(|| printed(case, plan), words);
            held.unwrap_or_default()
        })),
    }
}

/// What the program prints for these files, without the line's end.
fn printed(case: Option<&[u8]>, plan: Option<&[u8]>) -> String {
    let named = [(b"case.bin".as_slice(), case), (b"plan.bin", plan)];
    let files = named.into_iter();
    let files = files.filter_map(|(name, file)| Some((name, file?.to_vec())));
    let text = kit::run(files.collect(), program);
    let text = String::from_utf8_lossy(&text);
    match text.strip_suffix('\n') {
        Some(line) => line.to_string(),
        None => format!("{text} without an end"),
    }
}

/// The functions that have a promise for what no call of the library hands to them or takes from them: a place past a list's end, a
/// negative number that is to be an index, two answers of which the first no is asked, numbers that are copied behind others or past
/// the end, and a node's bounds and demand, of which the plan's judge has a reader of its own.
pub fn by_themselves(edited: &Edited, seed: u64) {
    let list = any_list(&mut Rng::new(seed), 6);
    for i in 0..list.len() + 2 {
        let number_at = edited.named("numbers::compare::at");
        number_at.held(|| at(&list, i), |a, b| format!("gives {a}, for {b}"));
    }
    for &x in &list {
        let index_of = edited.named("numbers::compare::index");
        index_of.held(|| index(x), |a, b| format!("gives {a}, for {b}"));
    }
    for (a, b) in [(21, 22), (21, 21), (22, 21)] {
        let at_most_of = edited.named("numbers::compare::at_most");
        at_most_of.held(|| at_most(a, b), |a, b| format!("gives {a}, for {b}"));
        let same_of = edited.named("numbers::compare::same");
        same_of.held(|| same(a, b), |a, b| format!("gives {a}, for {b}"));
    }
    for (a, b) in [(21, 22), (21, 21)] {
        let first = edited.named("numbers::answer::or_else");
        let call = || or_else(ask(a == b, a, 1, 0), ask(false, b, 2, 0));
        first.held(call, |a, b| format!("gives {a:?}, for {b:?}"));
    }
    for place in 0..list.len() + 2 {
        let copied = edited.named("numbers::lists::copy");
        let call = || {
            let mut to = list.clone();
            (copy(&list[list.len() / 2..], &mut to, place), to)
        };
        copied.held(call, |a, b| format!("leaves {a:?}, for {b:?}"));
    }
    // two steps; each number is its own index, but for their count
    let mut rows: Vec<i64> = (0..30).collect();
    rows[4] = 2;
    for (v, i) in [(0, 0), (0, 1), (1, 0), (2, 1), (3, 0)] {
        let read = edited.named("case::read::node");
        let call = || {
            let n = node(&rows, v, i);
            [n.p0, n.low, n.high, n.actlow, n.acthigh, n.demand]
        };
        read.held(call, |a, b| format!("reads {a:?}, for {b:?}"));
    }
}
