//! Edges of 60, 61 and 62: the last record that passes and the first that does not, its first row and its last.

use super::settlement::{apart_from, settled};
use super::{Expect, SettleEdge, SettleEdgesOf};
use crate::aimed::refused;
use crate::records::{GRAMS, MOST_GRAMS, MOST_ROWS, Row, TIME, list};

/// The edges of records by their names.
pub const RECORD_EDGES: &[(&str, SettleEdgesOf)] = &[
    ("60 half a row", edge_60_half_a_row),
    ("60 5000 rows", edge_60_5000_rows),
    ("60 5001 rows", edge_60_5001_rows),
    ("60 agreed lowest", edge_60_agreed_lowest),
    ("60 agreed highest", edge_60_agreed_highest),
    ("60 agreed below", edge_60_agreed_below),
    ("60 agreed above", edge_60_agreed_above),
    ("60 before 61", edge_60_before_61),
    ("61 from 0", edge_61_from_0),
    ("61 below 0", edge_61_below_0),
    ("61 highest", edge_61_highest),
    ("61 one up", edge_61_one_up),
    ("61 equal", edge_61_equal),
    ("61 one down", edge_61_one_down),
    ("61 far down", edge_61_far_down),
    ("61 down for one row", edge_61_down_for_one_row),
    ("61 last row", edge_61_last_row),
    ("61 sender first", edge_61_sender_first),
    ("61 before 62", edge_61_before_62),
    ("62 lowest", edge_62_lowest),
    ("62 highest", edge_62_highest),
    ("62 below", edge_62_below),
    ("62 above", edge_62_above),
    ("62 last row", edge_62_last_row),
    ("62 sender first", edge_62_sender_first),
];

/// Three hours that pass, 1,800 g together.
const HOURS: [Row; 3] = [[3_600, 500], [7_200, 600], [10_800, 700]];

/// So many rows, a second apart from 0 on.
fn seconds(count: usize, grams: i64) -> Vec<Row> {
    (0..count as i64).map(|time| [time, grams]).collect()
}

fn last_row_with(column: usize, number: i64) -> Vec<Row> {
    let mut rows = seconds(MOST_ROWS, 1);
    rows[MOST_ROWS - 1][column] = number;
    rows
}

fn edge(sender: &[i64], receiver: &[i64], agreed: i64, expect: Expect) -> SettleEdge {
    SettleEdge {
        sender: sender.to_vec(),
        receiver: receiver.to_vec(),
        agreed,
        expect,
    }
}

fn refused_by(number: u8, row: usize) -> Expect {
    Expect::Refused(refused(number, 0, row))
}

/// As either record, beside one that passes and beside none, and as both.
fn bad(record: &[i64], number: u8, row: usize) -> Vec<SettleEdge> {
    let hours = list(&HOURS);
    let beside: [[&[i64]; 2]; 5] = [
        [record, &hours],
        [&hours, record],
        [record, &[]],
        [&[], record],
        [record, record],
    ];
    let as_they_are = |[sender, receiver]: [&[i64]; 2]| {
        let expect = refused_by(number, row);
        edge(sender, receiver, 0, expect)
    };
    beside.map(as_they_are).into()
}

fn bad_rows(rows: &[Row], number: u8, row: usize) -> Vec<SettleEdge> {
    bad(&list(rows), number, row)
}

/// Two records of rows that are refused in this order.
fn in_order(sender: &[Row], receiver: &[Row], number: u8, row: usize) -> SettleEdge {
    let expect = refused_by(number, row);
    edge(&list(sender), &list(receiver), 0, expect)
}

/// As either record beside none, and as both: these grams stand.
fn good(rows: &[Row], grams: i64) -> Vec<SettleEdge> {
    let count = rows.len() as i64;
    let mut edges = apart_from(rows, &[], grams);
    edges.push(settled(rows, rows, 0, [grams, count, 0, 0, 0]));
    edges
}

/// One number, three, one less than 5,000 rows have and one more.
fn edge_60_half_a_row() -> Vec<SettleEdge> {
    let numbers = |count: usize| list(&seconds(MOST_ROWS + 1, 1))[..count].to_vec();
    let lengths = [1, 3, 2 * MOST_ROWS - 1, 2 * MOST_ROWS + 1].into_iter();
    lengths
        .flat_map(|length| bad(&numbers(length), 60, 0))
        .collect()
}

fn edge_60_5000_rows() -> Vec<SettleEdge> {
    good(&seconds(MOST_ROWS, 1), 5_000)
}

fn edge_60_5001_rows() -> Vec<SettleEdge> {
    bad_rows(&seconds(MOST_ROWS + 1, 1), 60, 0)
}

fn agreed_at(agreed: i64) -> Vec<SettleEdge> {
    vec![
        settled(&[], &[], agreed, [0; 5]),
        settled(&HOURS, &HOURS, agreed, [1_800, 3, 0, 0, 0]),
    ]
}

fn not_agreed_at(figures: [i64; 2]) -> Vec<SettleEdge> {
    let hours = list(&HOURS);
    let edges = figures.map(|agreed| {
        [
            edge(&[], &[], agreed, refused_by(60, 0)),
            edge(&hours, &hours, agreed, refused_by(60, 0)),
        ]
    });
    edges.into_iter().flatten().collect()
}

fn edge_60_agreed_lowest() -> Vec<SettleEdge> {
    agreed_at(0)
}

fn edge_60_agreed_highest() -> Vec<SettleEdge> {
    agreed_at(MOST_GRAMS)
}

fn edge_60_agreed_below() -> Vec<SettleEdge> {
    not_agreed_at([-1, i64::MIN])
}

fn edge_60_agreed_above() -> Vec<SettleEdge> {
    not_agreed_at([MOST_GRAMS + 1, i64::MAX])
}

/// The sender's times and masses are wrong from the first row on, the receiver's length or the agreed figure is, too.
fn edge_60_before_61() -> Vec<SettleEdge> {
    let wrong = [-1, -1, -1, -1];
    let long = list(&seconds(MOST_ROWS + 1, 1));
    vec![
        edge(&wrong, &[0], 0, refused_by(60, 0)),
        edge(&wrong, &[0, 5, 60], 0, refused_by(60, 0)),
        edge(&wrong, &long, 0, refused_by(60, 0)),
        edge(&wrong, &[], -1, refused_by(60, 0)),
        edge(&[], &wrong, MOST_GRAMS + 1, refused_by(60, 0)),
        edge(&wrong, &wrong, 0, refused_by(61, 0)),
    ]
}

fn edge_61_from_0() -> Vec<SettleEdge> {
    good(&[[0, 5]], 5)
}

fn edge_61_below_0() -> Vec<SettleEdge> {
    let mut edges = bad_rows(&[[-1, 5]], 61, 0);
    edges.extend(bad_rows(&[[i64::MIN, 5], [0, 5]], 61, 0));
    edges.extend(bad_rows(&[[-2, 5], [-1, 5], [0, 5]], 61, 0));
    edges
}

fn edge_61_highest() -> Vec<SettleEdge> {
    let mut edges = good(&[[i64::MAX, 5]], 5);
    edges.extend(good(&[[0, 5], [i64::MAX, 6]], 11));
    edges.extend(good(&[[0, 5], [i64::MAX - 1, 6], [i64::MAX, 7]], 18));
    edges
}

fn edge_61_one_up() -> Vec<SettleEdge> {
    good(&[[0, 5], [1, 6], [2, 7]], 18)
}

fn edge_61_equal() -> Vec<SettleEdge> {
    let mut edges = bad_rows(&[[0, 5], [0, 6]], 61, 1);
    edges.extend(bad_rows(&[[0, 5], [60, 6], [60, 6], [120, 7]], 61, 2));
    edges.extend(bad_rows(&[[0, 5], [i64::MAX, 6], [i64::MAX, 7]], 61, 2));
    edges
}

fn edge_61_one_down() -> Vec<SettleEdge> {
    let mut edges = bad_rows(&[[60, 5], [59, 6]], 61, 1);
    edges.extend(bad_rows(&[[0, 5], [60, 6], [59, 7]], 61, 2));
    edges.extend(bad_rows(&[[0, 5], [-1, 6]], 61, 1));
    edges
}

fn edge_61_far_down() -> Vec<SettleEdge> {
    let mut edges = bad_rows(&[[i64::MAX, 5], [i64::MIN, 6]], 61, 1);
    edges.extend(bad_rows(&[[0, 5], [i64::MAX, 6], [0, 7]], 61, 2));
    edges
}

/// The row after rises again, above it and above all: the first that does not rise is told.
fn edge_61_down_for_one_row() -> Vec<SettleEdge> {
    let mut edges = bad_rows(&[[0, 5], [60, 6], [30, 7], [40, 8]], 61, 2);
    edges.extend(bad_rows(&[[0, 5], [60, 6], [30, 7], [90, 8]], 61, 2));
    edges.extend(bad_rows(&[[9, 5], [8, 6], [7, 7], [6, 8]], 61, 1));
    edges
}

fn edge_61_last_row() -> Vec<SettleEdge> {
    let (before, row) = (MOST_ROWS as i64 - 2, MOST_ROWS - 1);
    let mut edges = bad_rows(&last_row_with(TIME, before), 61, row);
    edges.extend(bad_rows(&last_row_with(TIME, before - 1), 61, row));
    edges
}

/// The sender's row is told, though the receiver's comes earlier in its record.
fn edge_61_sender_first() -> Vec<SettleEdge> {
    let late = [[0, 5], [60, 6], [60, 7]];
    vec![
        in_order(&late, &[[-1, 5], [60, 6]], 61, 2),
        in_order(&late, &[[0, 5], [0, 6]], 61, 2),
        in_order(&last_row_with(TIME, 0), &[[-1, 5]], 61, MOST_ROWS - 1),
        in_order(&[[-1, 5], [60, 6]], &late, 61, 0),
    ]
}

/// A mass is wrong in the first row, a time in the last.
fn edge_61_before_62() -> Vec<SettleEdge> {
    let (light, falls) = ([[0, -1], [60, 5]], [[0, 5], [60, 6], [60, 7]]);
    let mut edges = bad_rows(&[[0, -1], [60, 6], [60, 7]], 61, 2);
    edges.push(in_order(&light, &falls, 61, 2));
    edges.push(in_order(&falls, &light, 61, 2));
    edges
}

fn edge_62_lowest() -> Vec<SettleEdge> {
    good(&[[0, 0], [60, 0]], 0)
}

fn edge_62_highest() -> Vec<SettleEdge> {
    good(&[[0, MOST_GRAMS], [60, MOST_GRAMS]], 2 * MOST_GRAMS)
}

fn edge_62_below() -> Vec<SettleEdge> {
    let mut edges = bad_rows(&[[0, -1]], 62, 0);
    edges.extend(bad_rows(&[[0, 5], [60, i64::MIN], [120, -1]], 62, 1));
    edges
}

fn edge_62_above() -> Vec<SettleEdge> {
    let mut edges = bad_rows(&[[0, MOST_GRAMS + 1]], 62, 0);
    edges.extend(bad_rows(&[[0, 5], [60, i64::MAX], [120, -1]], 62, 1));
    edges
}

fn edge_62_last_row() -> Vec<SettleEdge> {
    let wrong = [-1, MOST_GRAMS + 1].into_iter();
    wrong
        .flat_map(|grams| bad_rows(&last_row_with(GRAMS, grams), 62, MOST_ROWS - 1))
        .collect()
}

/// The sender's row is told, though the receiver's comes earlier in its record.
fn edge_62_sender_first() -> Vec<SettleEdge> {
    let late = [[0, 5], [60, 6], [120, -1]];
    vec![
        in_order(&late, &[[0, MOST_GRAMS + 1]], 62, 2),
        in_order(&last_row_with(GRAMS, -1), &[[0, -1]], 62, MOST_ROWS - 1),
        in_order(&[[0, -1], [60, 6]], &late, 62, 0),
    ]
}
