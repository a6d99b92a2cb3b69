//! Aimed changes: each makes an accepted pair, or records that settle, end in a known first "no".
//!
//! A change gives nothing where what it is made on has no place for it.

mod arcs;
mod case;
mod compressing;
pub mod edges;
mod in_pressure;
mod ledger;
mod nodes;
mod pipes;
mod settlement;
pub mod sides;
mod stations;

pub use ledger::{LEDGER_AIMS, LedgerAim, LedgerInput};
pub use settlement::{SETTLE_AIMS, SettleAim, SettleInput};

use crate::model::{Pair, Refused};
use crate::rng::Rng;

/// A case list and a plan list with the first "no" they are to end in.
pub struct Aimed {
    pub case: Vec<i64>,
    pub plan: Vec<i64>,
    pub expect: Refused,
}

pub type Aim = fn(&mut Rng, &Pair) -> Option<Aimed>;

/// Every aimed change, named by the question and the part of it that is hit.
pub const AIMS: &[(&str, Aim)] = &[
    ("10 field missing", case::aim_10_missing),
    ("11 field too small", case::aim_11_too_small),
    ("11 field too large", case::aim_11_too_large),
    ("12 number left over", case::aim_12_left_over),
    ("13 arc from a node to itself", case::aim_13_loop),
    ("14 arc's end in another station", case::aim_14_end),
    ("14 arc of another station", case::aim_14_station),
    ("15 31 arcs", case::aim_15_crowd),
    ("16 node in entry and exit", case::aim_16_shared),
    ("16 stranger in entry or exit", case::aim_16_stranger),
    ("17 arc in on and off", case::aim_17_shared),
    ("17 on or off names no arc", case::aim_17_stranger),
    ("17 machine set names no machine", case::aim_17_machine),
    ("17 activity at step 0", case::aim_17_step_0),
    ("20 head or length", case::aim_20),
    ("21 pressure", nodes::aim_21_pressure),
    ("21 boundary numbers", nodes::aim_21_boundary),
    ("21 inner numbers", nodes::aim_21_inner),
    ("22 plan", nodes::aim_22_plan),
    ("22 demand", nodes::aim_22_demand),
    ("22 slacks swapped", nodes::aim_22_swapped),
    ("23 slack too small", nodes::aim_23_slack),
    ("23 active low", nodes::aim_23_actlow),
    ("23 active high", nodes::aim_23_acthigh),
    ("24 flow", arcs::aim_24_flow),
    ("24 unused numbers", arcs::aim_24_unused),
    ("24 setting", arcs::aim_24_setting),
    ("24 one-way arc backward", arcs::aim_24_one_way),
    ("24 machines", arcs::aim_24_machines),
    ("25 shut or off", arcs::aim_25_still),
    ("25 against the setting", arcs::aim_25_against),
    (
        "26 valve or shortcut between unequal pressures",
        compressing::aim_26_level,
    ),
    ("26 regulator turned round", compressing::aim_26_regulator),
    ("26 regulating uphill", compressing::aim_26_regulating),
    ("26 compressing downhill", compressing::aim_26_compressing),
    ("26 out bound", compressing::aim_26_out_bound),
    (
        "26 out bound, backward",
        compressing::aim_26_out_bound_backward,
    ),
    ("26 empty out bound", compressing::aim_26_empty_bound),
    (
        "26 empty out bound, backward",
        compressing::aim_26_empty_bound_backward,
    ),
    ("26 too few machines", compressing::aim_26_ratio),
    ("26 in pressure", in_pressure::aim_26_in_pressure),
    (
        "26 in pressure, backward",
        in_pressure::aim_26_in_pressure_backward,
    ),
    (
        "26 in pressure, in a later step",
        in_pressure::aim_26_in_pressure_later,
    ),
    (
        "26 in pressure, fallen below p0",
        in_pressure::aim_26_in_pressure_fallen,
    ),
    ("27 machines without compressing", compressing::aim_27_idle),
    ("27 most machines", compressing::aim_27_most),
    ("27 flow", compressing::aim_27_flow),
    ("28 flow", pipes::aim_28_flow),
    ("28 storage", pipes::aim_28_storage),
    ("28 p0", pipes::aim_28_p0),
    ("28 or 33, mass tolerance", pipes::aim_28_33_tolerance),
    ("29 friction or slope", pipes::aim_29_friction),
    ("29 pressure tolerance", pipes::aim_29_tolerance),
    ("30 direction or state out of range", stations::aim_30_range),
    ("30 direction not supported", stations::aim_30_support),
    ("30 on arc not active", stations::aim_30_on),
    ("30 off arc active", stations::aim_30_off),
    ("31 machine on two arcs", stations::aim_31),
    ("32 node in neither set", stations::aim_32_neither),
    ("32 node in the other set", stations::aim_32_other),
    ("33 boundary node", nodes::aim_33_boundary),
    ("33 inner node", nodes::aim_33_inner),
];

fn refused(number: u8, step: usize, place: usize) -> Refused {
    Refused {
        number,
        step,
        place,
    }
}

/// The lists of a changed pair.
fn aimed(pair: &Pair, number: u8, step: usize, place: usize) -> Option<Aimed> {
    Some(Aimed {
        case: pair.case.list(),
        plan: pair.plan.list(),
        expect: refused(number, step, place),
    })
}

/// A random step and a random item for which the test holds.
fn find(
    rng: &mut Rng,
    pair: &Pair,
    items: usize,
    test: impl Fn(usize, usize) -> bool,
) -> Option<(usize, usize)> {
    let mut found = Vec::new();
    for step in 1..=pair.steps() {
        found.extend((0..items).map(|item| (step, item)));
    }
    found.retain(|&(step, item)| test(step, item));
    rng.pick(&found)
}

/// The first step for which the test holds.
fn first_step(pair: &Pair, test: impl Fn(usize) -> bool) -> Option<usize> {
    (1..=pair.steps()).find(|&step| test(step))
}

/// The item's bit.
fn bit(item: usize) -> i64 {
    1 << item
}

fn holds(set: i64, item: usize) -> bool {
    set >> item & 1 == 1
}
