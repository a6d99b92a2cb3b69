//! The text that `explain` prints.

use gasplan::{Ledger, Totals};
use gasplan_text::model::Case;
use gasplan_text::words::{grouped, set};

use crate::amount::{Amount, MASS, Unit};
use crate::check::wide;
use crate::explanation::{Explanation, Region};

/// Below every answer. Each begins with a verdict of the library.
pub const NOT_PROVED: &str = "The verdict with its numbers, and the figures of a ledger, are the proved library's. All else is not proved.";

pub fn refused(explanation: &Explanation) -> String {
    let mut text = format!("{}\n", explanation.rule());
    for line in explanation.lines() {
        text.push_str(&line.replace('\n', "\n    "));
        text.push('\n');
    }
    text
}

/// The six totals with their units.
pub fn totals(totals: &Totals) -> String {
    let rows = [
        (
            "pressure slack",
            totals.pressure_slack,
            "mbar, over all nodes and steps",
        ),
        (
            "demand slack",
            totals.demand_slack,
            "g/s, over all nodes and steps",
        ),
        (
            "switching cost",
            totals.switching_cost,
            "in the case's weights",
        ),
        (
            "residual",
            totals.residual,
            "g, over all pipes, nodes and steps",
        ),
        ("gas at the start", totals.gas_at_start, "g in all pipes"),
        ("gas at the end", totals.gas_at_end, "g in all pipes"),
    ];
    table(&rows)
}

fn table(rows: &[(&str, i64, &str)]) -> String {
    let line = |&(name, number, unit): &(&str, i64, &str)| {
        let line = format!("  {name:<18}{:>16} {unit}", grouped(wide(number)));
        format!("{}\n", line.trim_end())
    };
    rows.iter().map(line).collect()
}

/// The ledger of a region with its balance line.
pub fn ledger(case: &Case, region: Region, ledger: &Ledger) -> String {
    let Region { set: nodes, s, t } = region;
    let time = |step: i64| {
        usize::try_from(step)
            .ok()
            .and_then(|step| case.times.get(step))
    };
    let time = |step: i64| time(step).copied().unwrap_or(0);
    let mut text = format!(
        "ledger of the nodes {}, step {s} to step {t} ({} s to {} s)\n",
        set(nodes),
        time(s),
        time(t)
    );
    let at = |step: i64| format!("gas at step {step}");
    let (at_s, at_t) = (at(s), at(t));
    text.push_str(&table(&[
        ("nodes", ledger.nodes, ""),
        (
            "inner pipes",
            ledger.inner_pipes,
            "pipes with both ends in the set",
        ),
        (&at_s, ledger.gas_at_s, "g in the inner pipes"),
        (&at_t, ledger.gas_at_t, "g in the inner pipes"),
        ("brought in", ledger.brought_in, "g"),
        ("residual", ledger.residual, "g"),
    ]));
    text.push_str(&balance(case, region, ledger));
    text
}

/// Gas at t less gas at s less what was brought in, held against the residual and the tolerance.
fn balance(case: &Case, region: Region, ledger: &Ledger) -> String {
    let left = wide(ledger.gas_at_t) - wide(ledger.gas_at_s) - wide(ledger.brought_in);
    let residual = wide(ledger.residual);
    let items = wide(ledger.nodes) + wide(ledger.inner_pipes);
    let steps = wide(region.t) - wide(region.s);
    let most = steps * items * wide(case.mass_tolerance);
    let than = |small: i128, large: i128| if small <= large { "at most" } else { "OVER" };
    let [steps, items] = [(steps, "step"), (items, "node or inner pipe")].map(|(count, thing)| {
        let unit = Unit::Thing(thing);
        Amount { count, unit }.to_string()
    });
    let items = items.replace("node or inner pipes", "nodes and inner pipes");
    let grams = |count| Amount { count, unit: MASS };
    format!(
        "  balance: gas at step {} - gas at step {} - brought in = {};\n           \
         its size is {} the residual, {}, and that is {}\n           \
         {steps} × {items} × the mass tolerance {} = {}\n",
        region.t,
        region.s,
        grams(left),
        than(left.abs(), residual),
        grams(residual),
        than(residual, most),
        grams(wide(case.mass_tolerance)),
        grams(most)
    )
}
