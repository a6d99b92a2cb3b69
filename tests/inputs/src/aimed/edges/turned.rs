//! A pair with its nodes, arcs and stations in the opposite order: what was last is first.

use super::Expect;
use crate::model::{ENTRY, EXIT, OFF, ON, Pair, Refused, SHORTCUT, STATION};

/// The same pair, but for the order of its items.
pub fn turned(pair: &Pair) -> Pair {
    let mut turned = pair.clone();
    let case = &mut turned.case;
    let [nodes, stations] = [case.nodes.len(), case.stations.len()];
    for (station, its) in case.stations.iter_mut().enumerate() {
        let arcs = pair.case.station_arcs(station).len();
        for direction in &mut its.directions {
            for set in [ENTRY, EXIT] {
                direction[set] = turned_set(direction[set], nodes);
            }
        }
        for state in &mut its.states {
            for set in [ON, OFF] {
                state[set] = turned_set(state[set], arcs);
            }
        }
    }
    for arc in &mut case.arcs {
        (arc.from, arc.to) = (nodes - 1 - arc.from, nodes - 1 - arc.to);
        if arc.kind >= SHORTCUT {
            arc.more[STATION] = stations as i64 - 1 - arc.more[STATION];
        }
    }
    case.nodes.reverse();
    case.arcs.reverse();
    case.stations.reverse();
    for step in &mut turned.plan.steps {
        step.nodes.reverse();
        step.arcs.reverse();
        step.stations.reverse();
    }
    turned
}

/// The set with its items in the opposite order; what is past the count of items stays where it is.
pub fn turned_set(set: i64, items: usize) -> i64 {
    let own = (1 << items) - 1;
    let turned = |item: usize| (set >> item & 1) << (items - 1 - item);
    (0..items).map(turned).sum::<i64>() | set & !own
}

/// What the turned pair is to be answered: the place goes by what the question asks about.
pub fn turned_expect(expect: Expect, pair: &Pair) -> Expect {
    let Expect::Refused(refused) = expect else {
        return expect;
    };
    let items = match refused.number {
        13 | 24..=29 => pair.case.arcs.len(),
        14 | 21..=23 | 33 => pair.case.nodes.len(),
        15..=17 | 30..=32 => pair.case.stations.len(),
        _ => return expect,
    };
    Expect::Refused(Refused {
        place: items - 1 - refused.place,
        ..refused
    })
}
