//! The time per plan number as the plan doubles: level where the time grows as the plan.
//!
//! Steps double; the whole network doubles; arcs alone double over the same nodes. In the last
//! the mix changes: six rules are asked of an arc's four numbers, three of a node's six.

use inputs::generate::Size;

use crate::pairs::Lists;
use crate::race::Timer;

pub fn print(timer: Timer) {
    println!("                                    nanoseconds per plan number");
    println!("nodes, arcs, stations, steps        proved     plain     ratio");
    for steps in [6, 12, 24, 48] {
        print_row(timer, size(60, 120, 8, steps));
    }
    println!();
    for part in [8, 4, 2, 1] {
        print_row(timer, size(60 / part, 120 / part, 8 / part, 48));
    }
    println!();
    for arcs in [15, 30, 60, 120] {
        print_row(timer, size(60, arcs, 8, 48));
    }
}

fn size(nodes: usize, arcs: usize, stations: usize, steps: usize) -> Size {
    Size {
        nodes,
        arcs,
        stations,
        steps,
    }
}

fn print_row(timer: Timer, size: Size) {
    let lists = Lists::new(size);
    let numbers = lists.plan.len();
    let name = format!(
        "{}, {}, {}, {}",
        size.nodes, size.arcs, size.stations, size.steps
    );
    let [proved, plain] = lists
        .race_plan(timer)
        .map(|seconds| seconds / numbers as f64 * 1e9);
    println!(
        "{name:<34} {proved:>8.1}  {plain:>8.1}  {:>8.2}",
        plain / proved
    );
}
