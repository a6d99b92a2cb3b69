//! The settlement of two meters' records: per call on the longest records, and per row as records grow.

use std::hint::black_box;

use gasplan::calls as proved;
use harness::calls as plain;
use inputs::Rng;
use inputs::records::{MOST_GRAMS, MOST_ROWS, Row, list};

use crate::alike::race_to;
use crate::race::Timer;

/// What is agreed, in grams.
const AGREED: i64 = 500;

/// The rows of a record in the tables of growth.
const LENGTHS: [usize; 5] = [50, 158, 500, 1_581, 5_000];

/// The answer where records settle, and where a mass is out of range.
const SETTLED: i64 = 0;
const MASS_REFUSED: i64 = 62;

/// The sender's record and the receiver's.
type Lists = [Vec<i64>; 2];

/// So many rows of each.
type Make = fn(&mut Rng, usize) -> Lists;

const INPUTS: [(&str, Make); 4] = [
    ("the same", the_same),
    ("some masses apart", some_masses_apart),
    ("one after the other", one_after_the_other),
    ("in any turns", in_any_turns),
];

/// Records of no common time, and of all times common.
const GROWING: [(&str, Make); 2] = [
    ("in any turns", in_any_turns),
    ("some masses apart", some_masses_apart),
];

pub fn print(timer: Timer) {
    println!("                                    microseconds per call");
    println!("records, rows of each               proved       map     ratio     merge     ratio");
    for (name, make) in INPUTS {
        let lists = make(&mut Rng::new(1), MOST_ROWS);
        let seconds = settle_all(timer, SETTLED, &[lists]);
        print_row(&format!("{name}, {MOST_ROWS}"), seconds, 1e6);
    }
    let lists = wrong_at_the_end(&mut Rng::new(1), MOST_ROWS);
    let seconds = settle_all(timer, MASS_REFUSED, &[lists]);
    print_row(&format!("last mass refused, {MOST_ROWS}"), seconds, 1e6);
    for (name, make) in GROWING {
        println!();
        print_growth(timer, name, make);
    }
}

fn print_growth(timer: Timer, name: &str, make: Make) {
    println!("                                    nanoseconds per row");
    println!("records, rows of each               proved       map     ratio     merge     ratio");
    for length in LENGTHS {
        // About as many rows in all as in the longest, so that no record's branches are learnt by heart.
        let mut rng = Rng::new(1);
        let records = (0..MOST_ROWS / length).map(|_| make(&mut rng, length));
        let all: Vec<Lists> = records.collect();
        let rows = 2 * length * all.len();
        let seconds = settle_all(timer, SETTLED, &all);
        print_row(&format!("{name}, {length}"), seconds, 1e9 / rows as f64);
    }
}

/// Seconds to settle them all, with answers that add up to this one: proved, by the map and by the merge.
fn settle_all(timer: Timer, answer: i64, all: &[Lists]) -> [f64; 3] {
    let each = |settle: fn(&[i64], &[i64], i64, &mut [i64]) -> i64| {
        move |out: &mut [i64]| {
            let answers = all.iter().map(|[sender, receiver]| {
                settle(black_box(sender), black_box(receiver), AGREED, out)
            });
            answers.sum()
        }
    };
    let calls = [proved::settle, plain::settle, plain::settle_merged];
    let [proved, map, merge] = calls.map(each);
    race_to(timer, answer, [&proved, &map, &merge])
}

fn print_row(name: &str, seconds: [f64; 3], unit: f64) {
    let [proved, map, merge] = seconds.map(|seconds| seconds * unit);
    println!(
        "{name:<34} {proved:>8.1}  {map:>8.1}  {:>8.2}  {merge:>8.1}  {:>8.2}",
        map / proved,
        merge / proved
    );
}

/// Up to 1,000 kg.
fn mass(rng: &mut Rng) -> i64 {
    rng.within(0..=1_000_000)
}

/// An hour to a row, from this one on.
fn hours(rng: &mut Rng, first: usize, count: usize) -> Vec<Row> {
    let hours = (first..first + count).map(|hour| 3_600 * hour as i64);
    hours.map(|time| [time, mass(rng)]).collect()
}

fn the_same(rng: &mut Rng, count: usize) -> Lists {
    let record = list(&hours(rng, 0, count));
    [record.clone(), record]
}

/// All times in both; every eighth mass or so differs, one half of these by more than is agreed.
fn some_masses_apart(rng: &mut Rng, count: usize) -> Lists {
    let sender = hours(rng, 0, count);
    let mut receiver = sender.clone();
    for [_, grams] in &mut receiver {
        if rng.once_in(8) {
            *grams += [AGREED, AGREED + 1][rng.below(2)];
        }
    }
    [list(&sender), list(&receiver)]
}

/// The receiver's last mass is out of range, which is asked last of all.
fn wrong_at_the_end(rng: &mut Rng, count: usize) -> Lists {
    let [sender, mut receiver] = some_masses_apart(rng, count);
    receiver[2 * count - 1] = MOST_GRAMS + 1;
    [sender, receiver]
}

fn one_after_the_other(rng: &mut Rng, count: usize) -> Lists {
    [hours(rng, 0, count), hours(rng, count, count)].map(|rows| list(&rows))
}

/// No time in both: whose row is next is random.
fn in_any_turns(rng: &mut Rng, count: usize) -> Lists {
    let mut turns = [vec![0; count], vec![1; count]].concat();
    rng.shuffle(&mut turns);
    let mut lists = [Vec::new(), Vec::new()];
    for (turn, row) in turns.into_iter().zip(hours(rng, 0, 2 * count)) {
        lists[turn].extend(row);
    }
    lists
}
