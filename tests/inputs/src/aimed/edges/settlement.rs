//! Edges of the five figures: how the two masses of a time differ, and how the times of two records stand to each other.
//!
//! | time | sender | receiver | stands where 10 g are agreed | |
//! |---|---|---|---|---|
//! | 0 | 1,000 | | 1,000 | only sender |
//! | 60 | 500 | 500 | 500 | agreed |
//! | 120 | 500 | 510 | 500 | agreed |
//! | 180 | 510 | 500 | 510 | agreed |
//! | 240 | | 70 | 70 | only receiver |
//! | 300 | 500 | 511 | 500 | cut |
//! | 360 | 511 | 500 | 500 | cut |
//! | 420 | 0 | 11 | 0 | cut |
//! | 480 | 0 | 10 | 0 | agreed |
//! | 540 | 2,000 | | 2,000 | only sender |
//! | all | | | 5,580 | 4 agreed, 3 cut, 2 only sender, 1 only receiver |

use super::{Expect, SettleEdge, SettleEdgesOf};
use crate::records::{GRAMS, MOST_GRAMS, MOST_ROWS, Row, list};

/// The edges of settlements by their names.
pub const SETTLE_EDGES: &[(&str, SettleEdgesOf)] = &[
    ("settled known", edge_settled_known),
    ("settled known turned", edge_settled_known_turned),
    ("settled known, one less", edge_settled_known_one_less),
    ("settled known, one more", edge_settled_known_one_more),
    ("settled no rows", edge_settled_no_rows),
    ("settled the same", edge_settled_the_same),
    ("settled at the agreed", edge_settled_at_the_agreed),
    ("settled past the agreed", edge_settled_past_the_agreed),
    ("settled apart", edge_settled_apart),
    ("settled one in the other", edge_settled_one_in_the_other),
    ("settled in turns", edge_settled_in_turns),
    ("settled a second off", edge_settled_a_second_off),
    ("settled first shared", edge_settled_first_shared),
    ("settled last shared", edge_settled_last_shared),
    ("settled end to end", edge_settled_end_to_end),
    ("settled at both ends", edge_settled_at_both_ends),
    ("settled last of 5000", edge_settled_last_of_5000),
    ("settled most", edge_settled_most),
];

const SENDER: [Row; 9] = [
    [0, 1_000],
    [60, 500],
    [120, 500],
    [180, 510],
    [300, 500],
    [360, 511],
    [420, 0],
    [480, 0],
    [540, 2_000],
];

const RECEIVER: [Row; 8] = [
    [60, 500],
    [120, 510],
    [180, 500],
    [240, 70],
    [300, 511],
    [360, 500],
    [420, 11],
    [480, 10],
];

/// Total, agreed, cut, only sender, only receiver.
pub fn settled(sender: &[Row], receiver: &[Row], agreed: i64, figures: [i64; 5]) -> SettleEdge {
    SettleEdge {
        sender: list(sender),
        receiver: list(receiver),
        agreed,
        expect: Expect::Settled(figures),
    }
}

/// Records that share no time, both ways round: every row stands, whatever is agreed.
pub fn apart_from(one: &[Row], other: &[Row], grams: i64) -> Vec<SettleEdge> {
    let counts = [one.len() as i64, other.len() as i64];
    let ways = |agreed| {
        [
            settled(one, other, agreed, [grams, 0, 0, counts[0], counts[1]]),
            settled(other, one, agreed, [grams, 0, 0, counts[1], counts[0]]),
        ]
    };
    [0, MOST_GRAMS].into_iter().flat_map(ways).collect()
}

fn edge_settled_known() -> Vec<SettleEdge> {
    vec![settled(&SENDER, &RECEIVER, 10, [5_580, 4, 3, 2, 1])]
}

/// The other's masses stand where the two agree: 500, 510, 500 and 10.
fn edge_settled_known_turned() -> Vec<SettleEdge> {
    vec![settled(&RECEIVER, &SENDER, 10, [5_590, 4, 3, 1, 2])]
}

/// 120, 180 and 480 are cut, to 500, 500 and 0.
fn edge_settled_known_one_less() -> Vec<SettleEdge> {
    vec![settled(&SENDER, &RECEIVER, 9, [5_570, 1, 6, 2, 1])]
}

/// 300, 360 and 420 agree: 500, 511 and 0 stand.
fn edge_settled_known_one_more() -> Vec<SettleEdge> {
    vec![settled(&SENDER, &RECEIVER, 11, [5_591, 7, 0, 2, 1])]
}

fn edge_settled_no_rows() -> Vec<SettleEdge> {
    let mut edges = apart_from(&[], &[], 0);
    edges.extend(apart_from(&SENDER, &[], 5_521));
    edges.extend(apart_from(&[[0, 0]], &[], 0));
    edges
}

fn edge_settled_the_same() -> Vec<SettleEdge> {
    let same = |agreed| {
        [
            settled(&SENDER, &SENDER, agreed, [5_521, 9, 0, 0, 0]),
            settled(&RECEIVER, &RECEIVER, agreed, [2_612, 8, 0, 0, 0]),
        ]
    };
    [0, 1, MOST_GRAMS].into_iter().flat_map(same).collect()
}

/// One time in both records: the two masses, and what is agreed.
fn masses(sender: i64, receiver: i64, agreed: i64, figures: [i64; 5]) -> SettleEdge {
    settled(&[[60, sender]], &[[60, receiver]], agreed, figures)
}

fn edge_settled_at_the_agreed() -> Vec<SettleEdge> {
    vec![
        masses(5, 5, 0, [5, 1, 0, 0, 0]),
        masses(100, 110, 10, [100, 1, 0, 0, 0]),
        masses(110, 100, 10, [110, 1, 0, 0, 0]),
        masses(0, MOST_GRAMS, MOST_GRAMS, [0, 1, 0, 0, 0]),
        masses(MOST_GRAMS, 0, MOST_GRAMS, [MOST_GRAMS, 1, 0, 0, 0]),
    ]
}

fn edge_settled_past_the_agreed() -> Vec<SettleEdge> {
    vec![
        masses(4, 5, 0, [4, 0, 1, 0, 0]),
        masses(5, 4, 0, [4, 0, 1, 0, 0]),
        masses(100, 111, 10, [100, 0, 1, 0, 0]),
        masses(111, 100, 10, [100, 0, 1, 0, 0]),
        masses(0, MOST_GRAMS, MOST_GRAMS - 1, [0, 0, 1, 0, 0]),
        masses(MOST_GRAMS, 0, MOST_GRAMS - 1, [0, 0, 1, 0, 0]),
    ]
}

/// All of one before all of the other, from the very next second on and later.
fn edge_settled_apart() -> Vec<SettleEdge> {
    let early = [[0, 1], [60, 2]];
    let mut edges = apart_from(&early, &[[61, 10], [120, 20], [180, 30]], 63);
    edges.extend(apart_from(
        &early,
        &[[1_000, 10], [2_000, 20], [3_000, 30]],
        63,
    ));
    edges
}

/// In one gap, in several, and at times that the other has, too.
fn edge_settled_one_in_the_other() -> Vec<SettleEdge> {
    let wide = [[0, 1], [100, 2]];
    let mut edges = apart_from(&wide, &[[10, 10], [20, 20], [90, 30]], 63);
    let outer = [[0, 1], [10, 2], [20, 3], [30, 4], [40, 5]];
    edges.extend(apart_from(&outer, &[[5, 10], [35, 20]], 45));
    let shared = [[10, 2], [20, 3], [30, 4]];
    edges.push(settled(&outer, &shared, 0, [15, 3, 0, 2, 0]));
    edges.push(settled(&shared, &outer, 0, [15, 3, 0, 0, 2]));
    let less = [[10, 1], [15, 7], [30, 2]];
    edges.push(settled(
        &outer,
        &less,
        0,
        [1 + 1 + 7 + 3 + 2 + 5, 0, 2, 3, 1],
    ));
    edges.push(settled(
        &less,
        &outer,
        0,
        [1 + 1 + 7 + 3 + 2 + 5, 0, 2, 1, 3],
    ));
    edges
}

fn edge_settled_in_turns() -> Vec<SettleEdge> {
    let odd = [[1, 10], [3, 20], [5, 30]];
    let mut edges = apart_from(&[[0, 1], [2, 2], [4, 3]], &odd, 66);
    edges.extend(apart_from(&[[0, 1], [2, 2], [4, 3], [6, 4]], &odd, 70));
    edges
}

/// The same masses, one record a second later.
fn edge_settled_a_second_off() -> Vec<SettleEdge> {
    let [early, late] = [0, 1].map(|off| [[3_600 + off, 5], [7_200 + off, 6]]);
    apart_from(&early, &late, 22)
}

/// The record that is longer goes on alone.
fn edge_settled_first_shared() -> Vec<SettleEdge> {
    let (one, other) = ([[0, 5]], [[0, 6], [60, 7], [120, 8]]);
    vec![
        settled(&one, &other, 1, [5 + 15, 1, 0, 0, 2]),
        settled(&other, &one, 1, [6 + 15, 1, 0, 2, 0]),
        settled(&other, &one, 0, [5 + 15, 0, 1, 2, 0]),
    ]
}

fn edge_settled_last_shared() -> Vec<SettleEdge> {
    let (one, other) = ([[120, 5]], [[0, 7], [60, 8], [120, 6]]);
    vec![
        settled(&one, &other, 1, [5 + 15, 1, 0, 0, 2]),
        settled(&other, &one, 1, [6 + 15, 1, 0, 2, 0]),
        settled(&other, &one, 0, [5 + 15, 0, 1, 2, 0]),
    ]
}

/// The last time of one is the first of the other.
fn edge_settled_end_to_end() -> Vec<SettleEdge> {
    let (early, late) = ([[0, 1], [60, 5]], [[60, 6], [120, 2]]);
    vec![
        settled(&early, &late, 1, [1 + 5 + 2, 1, 0, 1, 1]),
        settled(&late, &early, 1, [1 + 6 + 2, 1, 0, 1, 1]),
    ]
}

/// Shared at 0 and at the highest number, and apart there.
fn edge_settled_at_both_ends() -> Vec<SettleEdge> {
    let (one, other) = ([[0, 5], [i64::MAX, 6]], [[0, 4], [i64::MAX, 8]]);
    let mut edges = vec![
        settled(&one, &other, 2, [11, 2, 0, 0, 0]),
        settled(&one, &other, 1, [11, 1, 1, 0, 0]),
        settled(&other, &one, 1, [10, 1, 1, 0, 0]),
    ];
    edges.extend(apart_from(&[[0, 5]], &[[i64::MAX, 6]], 11));
    edges.extend(apart_from(&[[i64::MAX - 1, 5]], &[[i64::MAX, 6]], 11));
    edges
}

fn hourly(count: usize, first: i64, apart: i64, grams: i64) -> Vec<Row> {
    let times = (0..count as i64).map(|hour| first + apart * hour);
    times.map(|time| [time, grams]).collect()
}

/// 5,000 shared times, of which the last is cut.
fn edge_settled_last_of_5000() -> Vec<SettleEdge> {
    let one = hourly(MOST_ROWS, 0, 3_600, 100);
    let mut other = one.clone();
    other[MOST_ROWS - 1][GRAMS] = 89;
    vec![
        settled(&one, &other, 10, [499_989, 4_999, 1, 0, 0]),
        settled(&other, &one, 10, [499_989, 4_999, 1, 0, 0]),
        settled(&one, &other, 11, [500_000, 5_000, 0, 0, 0]),
        settled(&other, &one, 11, [499_989, 5_000, 0, 0, 0]),
    ]
}

/// 10,000 rows stand, each with 10^12 g: one record after the other, and in turns. With a gram less no floating point number of
/// 64 bits is the total.
fn edge_settled_most() -> Vec<SettleEdge> {
    let one = hourly(MOST_ROWS, 0, 2, MOST_GRAMS);
    let total = 10_000_000_000_000_000;
    let mut edges = apart_from(&one, &hourly(MOST_ROWS, 1, 2, MOST_GRAMS), total);
    let mut after = hourly(MOST_ROWS, 2 * MOST_ROWS as i64, 1, MOST_GRAMS);
    edges.extend(apart_from(&one, &after, total));
    after[0][GRAMS] -= 1;
    edges.extend(apart_from(&one, &after, total - 1));
    edges
}
