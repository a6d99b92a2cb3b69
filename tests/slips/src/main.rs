//! Runs each must-fail edit of the code, as Rust, beside the code as it is, until an input tells the two apart.
//!
//! The list of edits, which `tests/slips/rust-of` writes, comes in as a file. Of an edit that is marked harmless no
//! input may tell: that shows that a slip which changes nothing is found out.
#![forbid(unsafe_code)]

mod calls;
mod edited;

use std::process::exit;
use std::sync::atomic::{AtomicUsize, Ordering};
use std::{env, fs, panic, thread};

use harness::{Beside, Difference, codec_rounds, document, rounds, settlement_rounds};

use edited::{Edited, NONE, Told};

/// Stands for what the document lays down, which is made from no seed.
const DOCUMENT: u64 = 0;

/// So many seeds are tried before an edit counts as untold.
const SEEDS: u64 = 200;

/// As many as the gate's machine has cores.
const THREADS: usize = 2;

struct Edit {
    number: usize,
    name: String,
    harmless: bool,
}

fn main() {
    let path = env::args().nth(1).expect("the file with the list of edits");
    let list = fs::read_to_string(path).expect("the list of edits");
    let edits: Vec<Edit> = list.lines().map(edit_of).collect();
    let harmless = edits.iter().filter(|edit| edit.harmless).count();
    let count = edits.len() - harmless;
    assert!(count > 40, "only {count} edits were found");
    assert!(harmless > 0, "nothing shows that this can fail");
    quiet_edits();
    let (next, wrong) = (AtomicUsize::new(0), AtomicUsize::new(0));
    thread::scope(|scope| {
        for _ in 0..THREADS {
            scope.spawn(|| {
                while let Some(edit) = edits.get(next.fetch_add(1, Ordering::Relaxed)) {
                    if !tried(edit) {
                        wrong.fetch_add(1, Ordering::Relaxed);
                    }
                }
            });
        }
    });
    let wrong = wrong.into_inner();
    if wrong > 0 {
        eprintln!("slips: {wrong} edits are not told as they should be");
        exit(1);
    }
    println!("slips: each of {count} edits is told by an input, none of {harmless} harmless ones");
}

/// A line is the edit's number, its crate, its name and perhaps the word harmless.
fn edit_of(line: &str) -> Edit {
    let words: Vec<&str> = line.split(' ').collect();
    Edit {
        number: words[0].parse().expect("an edit's number"),
        name: words[1..3].join("/"),
        harmless: words.get(3) == Some(&"harmless"),
    }
}

/// An edited function may stop anywhere; that is no failure of the trial.
fn quiet_edits() {
    let loud = panic::take_hook();
    panic::set_hook(Box::new(move |info| {
        if kit::edit::is(NONE) {
            loud(info);
        }
    }));
}

/// Is the edit told by an input, or by none if it is harmless? Prints which.
fn tried(edit: &Edit) -> bool {
    let input = telling_input(edit.number, false).or_else(|| telling_input(edit.number, true));
    let right = input.is_some() != edit.harmless;
    let words = input.unwrap_or_else(|| "no input tells it from the code as it is".to_string());
    match right {
        true => println!("{}: {words}", edit.name),
        false => eprintln!("{}: WRONG: {words}", edit.name),
    }
    right
}

/// The first input that tells the edit, and what the edited code does there.
fn telling_input(edit: usize, by_stops: bool) -> Option<String> {
    let edited = Edited {
        edit,
        call: "",
        by_stops,
        told: Told::default(),
    };
    let mut beside = Beside::new(calls::judge(&edited));
    for seed in DOCUMENT..=SEEDS {
        let made = inputs_of(&mut beside, &edited, seed);
        match (edited.told.take(), made) {
            (Some(told), _) if seed == DOCUMENT => {
                return Some(format!("{}: {told}", beside.input));
            }
            (Some(told), _) => return Some(format!("{}, seed {seed}: {told}", beside.input)),
            (None, Ok(())) => {}
            (None, Err(difference)) => panic!("without an edit: {difference}"),
        }
    }
    None
}

/// All that is made from a seed, until a call is told apart; first of all what the document lays down.
fn inputs_of(beside: &mut Beside, edited: &Edited, seed: u64) -> Result<(), Difference> {
    if seed == DOCUMENT {
        document::table_t(beside)?;
        return document::slips(beside);
    }
    codec_rounds::round(beside, seed)?;
    settlement_rounds::round(beside, seed)?;
    rounds::round(beside, seed)?;
    rounds::files_round(beside, seed)?;
    beside.input = "a function by itself";
    calls::by_themselves(edited, seed);
    Ok(())
}
