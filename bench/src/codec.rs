//! Reader and writer, in bytes per second.

use std::hint::black_box;

use gasplan::calls;
use second::{codec, earlier};

use crate::race::Timer;
use crate::subjects::{Subject, subjects};

/// Noise may lose one race, not so many in a row.
const RACES: usize = 3;

pub fn print(timer: Timer) {
    println!("                                    million bytes per second");
    println!("input, bytes                        proved     plain     ratio   earlier     ratio");
    for subject in subjects() {
        print_row("read", &subject, &read(timer, &subject));
        print_row("write", &subject, &write(timer, &subject));
    }
}

/// Seconds per call, proved and plain.
fn read(timer: Timer, subject: &Subject) -> [f64; 2] {
    let mut lists = [0; 2].map(|number| vec![number; subject.list.len()]);
    let [ours, plain] = &mut lists;
    let mut out = [0; 6];
    let seconds = timer.race([
        &mut || {
            black_box(calls::read(black_box(&subject.bytes), ours, &mut out));
        },
        &mut || {
            let _ = black_box(codec::read(black_box(&subject.bytes), plain));
        },
    ]);
    assert!(
        lists.iter().all(|list| *list == subject.list),
        "both read the list"
    );
    seconds
}

/// Seconds per call, proved, plain and earlier. A race that the earlier writer wins is run again.
fn write(timer: Timer, subject: &Subject) -> [f64; 3] {
    let mut races = (0..RACES).map(|_| write_once(timer, subject));
    let won = races.find(|[proved, _, earlier]| proved < earlier);
    won.unwrap_or_else(|| panic!("{}: the writer with a spare array is ahead", subject.name))
}

fn write_once(timer: Timer, subject: &Subject) -> [f64; 3] {
    let mut strings = [0; 3].map(|byte| vec![byte; subject.bytes.len()]);
    let [ours, plain, with_array] = &mut strings;
    let mut out = [0; 6];
    let seconds = timer.race([
        &mut || {
            black_box(calls::write(black_box(&subject.list), ours, &mut out));
        },
        &mut || {
            let _ = black_box(codec::write(black_box(&subject.list), plain));
        },
        &mut || {
            let _ = black_box(earlier::write(black_box(&subject.list), with_array));
        },
    ]);
    assert!(
        strings.iter().all(|bytes| *bytes == subject.bytes),
        "all write the bytes"
    );
    seconds
}

/// The proved call's speed, and after it the speed of each other with the ratio to it.
fn print_row(what: &str, subject: &Subject, seconds: &[f64]) {
    let name = format!("{what} {}, {}", subject.name, subject.bytes.len());
    let speed = |seconds: f64| subject.bytes.len() as f64 / seconds / 1e6;
    print!("{name:<34} {:>8.0}", speed(seconds[0]));
    for &other in &seconds[1..] {
        print!("  {:>8.0}  {:>8.2}", speed(other), other / seconds[0]);
    }
    println!();
}
