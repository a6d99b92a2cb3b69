//! What judging many costs beside the library's own time and the reading of files. Not run with the others, since it wants
//! a machine that does nothing else:
//!
//!     cd tools && cargo test --offline --release -p judge-many --test speed -- --ignored --nocapture

mod common;

use std::fs;
use std::hint::black_box;
use std::path::Path;
use std::process::{Command, Stdio};
use std::time::Instant;

use common::{COMMAND, Files, write_folders};
use inputs::Rng;
use inputs::bytes::encode;
use inputs::generate::{Size, of_size};

const PLANS: usize = 10_000;
const ROUNDS: usize = 25;

const SMALL: Size = Size {
    nodes: 4,
    arcs: 5,
    stations: 1,
    steps: 4,
};

/// About what the program's lists hold.
const PANEL: Size = Size {
    nodes: 12,
    arcs: 20,
    stations: 2,
    steps: 24,
};

/// Microseconds per plan.
fn timed(work: impl FnOnce()) -> f64 {
    let start = Instant::now();
    work();
    start.elapsed().as_secs_f64() * 1e6 / PLANS as f64
}

fn library(all: &[Files]) {
    let mut lists = (vec![0; 1_500], vec![0; 4_000]);
    for files in all {
        let [case, plan] = files.each_ref().map(|it| it.as_deref().unwrap_or_default());
        let answer = gasplan::judge_bytes(case, plan, &mut lists.0, &mut lists.1);
        assert!(black_box(answer).is_ok());
    }
}

fn reading(names: &[String]) {
    for name in names {
        for file in ["case.bin", "plan.bin"] {
            let bytes = fs::read(Path::new(name).join(file));
            assert!(!black_box(bytes.expect("a file")).is_empty());
        }
    }
}

fn command(list: &Path, jobs: &[&str]) {
    let mut command = Command::new(COMMAND);
    command.args(jobs).arg("--from").arg(list);
    let status = command.stdout(Stdio::null()).status();
    assert!(status.expect("the command runs").success());
}

/// The least of several rounds, taken in turns: library, reading, the command on one core and on all.
fn measure(name: &str, size: Size) -> [f64; 4] {
    let files = |seed| {
        let pair = of_size(&mut Rng::new(seed), size);
        [pair.case.list(), pair.plan.list()].map(|list| Some(encode(&list).bytes))
    };
    let all: Vec<Files> = (0..PLANS as u64).map(files).collect();
    let bytes = all.iter().flatten().flatten().map(Vec::len).sum::<usize>() / PLANS;
    let (list, names) = write_folders(name, &all);
    let mut least = [f64::INFINITY; 4];
    for _ in 0..ROUNDS {
        let round = [
            timed(|| library(&all)),
            timed(|| reading(&names)),
            timed(|| command(&list, &["--jobs", "1"])),
            timed(|| command(&list, &[])),
        ];
        least = std::array::from_fn(|index| least[index].min(round[index]));
    }
    let [library, reading, one, cores] = least;
    println!(
        "{name}: {PLANS} plans of {bytes} bytes with their case, microseconds per plan: library {library:.1}, \
         reading {reading:.1}, judge-many on one core {one:.1}, on all {cores:.1}"
    );
    least
}

#[test]
#[ignore = "a measure of time"]
fn it_costs_at_most_twice_the_library_and_the_reading() {
    for (name, size) in [("small", SMALL), ("panel", PANEL)] {
        let [library, reading, one, cores] = measure(name, size);
        assert!(one <= 2.0 * library + reading);
        assert!(cores <= 1.1 * one);
    }
}
