//! docs/OPTIMISERS.md: its example, line by line, and its bounds on plans from seeds.

use std::fs;
use std::ops::Range;
use std::path::Path;

use inputs::aimed::sides::{left_28, left_29, left_33};
use inputs::model::{C, MOST_MASS_TOLERANCE, PIPE};
use inputs::reach::ratio;
use inputs::rounding::bounds::{Rounded, twice_covered};
use inputs::rounding::errors::off_by_one;
use inputs::rounding::example::{
    A_MBAR_LEFT, AT_THE_REACH, MASS_TOLERANCE, PRESSURE_TOLERANCE, Solution, UNIT, WITH_ROOM,
    hide_slack, judged,
};
use inputs::{Pair, Rng, generate};

use crate::beside::{Beside, Difference};
use crate::document::verdict;

const PAGE: &str = "../../docs/OPTIMISERS.md";
const SECTION: &str = "\n## An example\n";

/// The lines that the page's example shows.
///
/// # Errors
/// Where the page or its section cannot be found.
pub fn lines_of_page() -> Result<Vec<String>, String> {
    let path = Path::new(env!("CARGO_MANIFEST_DIR")).join(PAGE);
    let page = fs::read_to_string(&path).map_err(|why| format!("{}: {why}", path.display()))?;
    let (_, section) = page.split_once(SECTION).ok_or("the example is missing")?;
    let section = section.split("\n## ").next().unwrap_or_default();
    let shown = section.lines().filter_map(|line| line.strip_prefix("    "));
    Ok(shown.map(str::to_string).collect())
}

/// The lines that the example has to show.
pub fn lines_of_example(beside: &mut Beside) -> Result<Vec<String>, Difference> {
    let pair = judged(&WITH_ROOM);
    let mut lines = rows_of_case(&pair);
    lines.extend(numbers(&WITH_ROOM, &pair));
    lines.push(largest_left_sides(&pair));
    lines.push(stored(&pair));
    lines.push(reached("at the reach", &AT_THE_REACH));
    lines.push(reached("a mbar left", &A_MBAR_LEFT));
    lines.extend(verdicts(beside, &pair)?);
    Ok(lines)
}

/// The case list, row by row.
fn rows_of_case(pair: &Pair) -> Vec<String> {
    let list = pair.case.list();
    let mut rest = list.iter().map(i64::to_string);
    let names = [
        ("head", 7),
        ("times", 2),
        ("node 0", 8),
        ("node 1", 8),
        ("node 2", 8),
        ("node 3", 8),
        ("arc 0", 11),
        ("arc 1", 11),
        ("arc 2", 11),
        ("station", 5),
        ("direction", 3),
        ("state", 4),
        ("machine", 2),
    ];
    let row = |(name, width): (&str, usize)| {
        let numbers: Vec<String> = rest.by_ref().take(width).collect();
        format!("{name:<11}{}", numbers.join(" "))
    };
    let mut lines: Vec<String> = names.into_iter().map(row).collect();
    lines.extend(rest);
    lines
}

/// Each number of the solution, and the whole one of the plan, in both steps.
fn numbers(solution: &Solution, pair: &Pair) -> Vec<String> {
    let line = |name: String, exact: [i64; 2], whole: [i64; 2]| {
        let pairs = exact.into_iter().zip(whole);
        let texts = pairs.map(|(exact, whole)| format!("{:>12}{whole:>7}", decimal(exact)));
        format!("{name:<21}{}", texts.collect::<String>())
    };
    let mut lines: Vec<String> = (0..pair.case.nodes.len())
        .map(|node| {
            let exact = [0, 1].map(|step| solution.pressures[step][node]);
            let whole = [1, 2].map(|step| pair.node(step, node).p);
            line(format!("p of node {node}"), exact, whole)
        })
        .collect();
    let arc = |arc: usize| [1, 2].map(|step| pair.arc(step, arc));
    lines.push(line(
        "into pipe 0".to_string(),
        solution.supplied,
        arc(0).map(|row| row.a),
    ));
    lines.push(line(
        "through arc 1".to_string(),
        solution.passed,
        arc(1).map(|row| row.a),
    ));
    lines.push(line(
        "out of pipe 2".to_string(),
        solution.delivered,
        arc(2).map(|row| row.b),
    ));
    let demands = &pair.case.nodes[3].demands;
    let short = [0, 1].map(|step| -UNIT * demands[step] - solution.delivered[step]);
    let slack = [1, 2].map(|step| pair.node(step, 3).s_minus);
    lines.push(line("s- of node 3".to_string(), short, slack));
    lines
}

fn decimal(thousandths: i64) -> String {
    format!("{}.{:03}", thousandths / UNIT, thousandths % UNIT)
}

fn largest_left_sides(pair: &Pair) -> String {
    let steps = 1..=pair.steps();
    let pipes = (0..pair.case.arcs.len()).filter(|&arc| pair.case.arcs[arc].kind == PIPE);
    let at_pipes: Vec<(usize, usize)> = pipes
        .flat_map(|arc| steps.clone().map(move |step| (step, arc)))
        .collect();
    let stored = at_pipes.iter().map(|&(step, arc)| left_28(pair, step, arc));
    let drops = at_pipes.iter().map(|&(step, arc)| left_29(pair, step, arc));
    let nodes = 0..pair.case.nodes.len();
    let balances = nodes.flat_map(|node| steps.clone().map(move |step| left_33(pair, step, node)));
    let largest = |sides: &mut dyn Iterator<Item = i64>| sides.map(i64::abs).max().unwrap_or(0);
    format!(
        "largest left sides: 28 {} g, 29 {} millionths of a mbar, 33 {} g",
        largest(&mut stored.into_iter()),
        largest(&mut drops.into_iter()),
        largest(&mut balances.into_iter()),
    )
}

/// 28 at pipe 0 in step 2, written out.
fn stored(pair: &Pair) -> String {
    let row = pair.arc(2, 0);
    let sum = |step: usize| pair.pressure(step, 0) + pair.pressure(step, 1);
    let (dt, c) = (pair.case.span(2), pair.case.arcs[0].more[C]);
    let left = left_28(pair, 2, 0);
    let (now, before) = (sum(2), sum(1));
    format!(
        "28 at pipe 0 in step 2: {dt} × ({} - {}) - {c} × ({now} - {before}) = {left}",
        row.a, row.b
    )
}

/// 26 at the station in step 2, where less was left than rounding can take.
fn reached(name: &str, solution: &Solution) -> String {
    let pair = judged(solution);
    let [exact_in, exact_out] = [1, 2].map(|node| decimal(solution.pressures[1][node]));
    let [p_in, out] = [1, 2].map(|node| pair.node(2, node).p);
    let (left, right) = (UNIT * out, p_in * ratio(&pair, 2, 1));
    format!(
        "26 at arc 1 in step 2, {name}: {exact_in} and {exact_out} become {p_in} and {out}, and {left} > {right}"
    )
}

fn verdicts(beside: &mut Beside, pair: &Pair) -> Result<Vec<String>, Difference> {
    let largest = left_28(pair, 2, 0).abs();
    let mut hidden = pair.clone();
    hide_slack(&mut hidden);
    let [at_the_reach, a_mbar_left] = [AT_THE_REACH, A_MBAR_LEFT].map(|it| judged(&it));
    let in_its_case = |name, pair| (name, pair, MASS_TOLERANCE, PRESSURE_TOLERANCE);
    let cases = [
        in_its_case("rounded", pair),
        ("rounded", pair, largest, 1),
        ("rounded", pair, largest - 1, 1),
        ("rounded", pair, largest, 0),
        in_its_case("at the reach", &at_the_reach),
        in_its_case("a mbar left", &a_mbar_left),
        in_its_case("slack hidden", &hidden),
        (
            "slack hidden",
            &hidden,
            MOST_MASS_TOLERANCE,
            PRESSURE_TOLERANCE,
        ),
    ];
    let mut lines = Vec::new();
    for (name, pair, mass, pressure) in cases {
        let (case, plan) = lists(pair, mass, pressure);
        let reply = beside.plan(&case, &plan)?;
        let name = format!("{name}, E {mass}, H {pressure}:");
        lines.push(format!("{name:<31}{}", verdict(&reply)));
    }
    for (name, pair) in [("rounded", pair), ("slack hidden", &hidden)] {
        lines.push(ledger(beside, name, pair)?);
    }
    Ok(lines)
}

fn lists(pair: &Pair, mass: i64, pressure: i64) -> (Vec<i64>, Vec<i64>) {
    let mut case = pair.case.clone();
    (case.mass_tolerance, case.pressure_tolerance) = (mass, pressure);
    (case.list(), pair.plan.list())
}

/// The ledger of all nodes over all steps.
fn ledger(beside: &mut Beside, name: &str, pair: &Pair) -> Result<String, Difference> {
    let (case, plan) = lists(pair, MOST_MASS_TOLERANCE, PRESSURE_TOLERANCE);
    let all = (1 << pair.case.nodes.len()) - 1;
    let reply = beside.ledger([&case, &plan], all, 0, pair.steps() as i64)?;
    let (more, brought_in) = (reply.out[3] - reply.out[2], reply.out[4]);
    Ok(format!(
        "ledger, {name}: {more} g more in the pipes, {brought_in} g brought in, {} g from nowhere",
        more - brought_in
    ))
}

/// What was rounded in a plan from a seed, and the number that refused it as long as E and H were not raised, or 0.
pub struct Judged {
    pub rounded: Rounded,
    pub without: i64,
}

/// An accepted plan from a seed, with each number off by 1 or by nothing, is accepted once E and H are raised by
/// twice what rounding can add. None where no case has such an E and H.
pub fn round(beside: &mut Beside, seed: u64) -> Result<Option<Judged>, Difference> {
    beside.begin(seed);
    let mut rng = Rng::new(seed);
    let pair = generate::accepted(&mut rng);
    let ways = [Rounded::FlowsAndPressures, Rounded::Flows];
    let covered = |&rounded: &Rounded| Some((rounded, twice_covered(&pair, rounded)?));
    let Some((rounded, (mass, pressure))) = ways.iter().find_map(covered) else {
        return Ok(None);
    };
    let off = off_by_one(&mut rng, &pair, rounded);
    let (case, plan) = lists(&off, mass, pressure);
    let reply = beside.plan(&case, &plan)?;
    if reply.answer != 0 {
        let text = format!("seed {seed}, E {mass}, H {pressure}: {}", verdict(&reply));
        return Err(Difference { text });
    }
    let (mass, pressure) = twice_covered(&pair, Rounded::Nothing).unwrap_or_default();
    let (case, plan) = lists(&off, mass, pressure);
    let without = beside.plan(&case, &plan)?.answer;
    Ok(Some(Judged { rounded, without }))
}

/// How often each came, over plans from these seeds.
#[derive(Debug, Default)]
pub struct Counts {
    pub with_pressures: u64,
    pub flows_alone: u64,
    /// Refused by 28, 29 and 33 before E and H were raised.
    pub refused: [u64; 3],
}

/// Many rounds; before E and H are raised only 28, 29 and 33 may refuse.
pub fn rounds(beside: &mut Beside, seeds: Range<u64>) -> Result<Counts, Difference> {
    let mut counts = Counts::default();
    for seed in seeds {
        let Some(judged) = round(beside, seed)? else {
            continue;
        };
        match judged.rounded {
            Rounded::FlowsAndPressures => counts.with_pressures += 1,
            _ => counts.flows_alone += 1,
        }
        match judged.without {
            0 => {}
            28 => counts.refused[0] += 1,
            29 => counts.refused[1] += 1,
            33 => counts.refused[2] += 1,
            other => {
                let text = format!("seed {seed}: rounding made {other} refuse");
                return Err(Difference { text });
            }
        }
    }
    Ok(counts)
}
