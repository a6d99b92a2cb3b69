//! Case, plan and ledger, in calls per second.

use inputs::generate::Size;

use crate::pairs::{Lists, PANEL};
use crate::race::Timer;

pub fn print(timer: Timer) {
    println!("                                    microseconds per call");
    println!("input, numbers                      proved     plain     ratio");
    for (name, size) in [("largest", Size::LARGEST), ("panel", PANEL)] {
        let lists = Lists::new(size);
        let (case, plan) = (lists.case.len(), lists.plan.len());
        print_row(&format!("{name} case, {case}"), lists.race_case(timer));
        print_row(
            &format!("{name} case and plan, {}", case + plan),
            lists.race_plan(timer),
        );
        print_row(
            &format!("{name} ledger, {}", case + plan),
            lists.race_ledger(timer),
        );
        println!("  {name}: {}", in_words(size));
    }
}

fn print_row(name: &str, seconds: [f64; 2]) {
    let [proved, plain] = seconds.map(|seconds| seconds * 1e6);
    println!(
        "{name:<34} {proved:>8.1}  {plain:>8.1}  {:>8.2}",
        plain / proved
    );
}

fn in_words(size: Size) -> String {
    let Size {
        nodes,
        arcs,
        stations,
        steps,
    } = size;
    format!("{nodes} nodes, {arcs} arcs, {stations} stations, {steps} steps")
}
