//! Every question whose answer is "no", in the order of the document.
//!
//! The library ends with the first. What is found here goes on from there and is not proved.

use gasplan::{Refusal, read_all};
use gasplan_text::model::Plan;

use crate::arc_rules::{Mode, mode};
use crate::explanation::{Explanation, Region, explain};
use crate::field_rules::{field_noes, rule_20};
use crate::input::{Input, Lists};
use crate::questions::{checks_of_item, checks_of_region, of_case, of_plan, stranger};
use crate::station_rules::chosen;

#[derive(Default)]
pub struct Noes {
    pub rows: Vec<Explanation>,
    /// Questions that an earlier "no" leaves without a meaning, each with the reason.
    pub left_out: Vec<String>,
}

/// Asks all questions of two files, and those of a ledger if one is asked for.
pub fn noes(input: &Input, region: Option<Region>) -> Noes {
    let mut asking = Asking {
        input,
        lists: &input.lists(),
        region,
        found: Noes::default(),
    };
    let fields_fit = asking.fields();
    if fields_fit {
        asking.items_of_case();
    }
    if asking.plan_bytes() && fields_fit {
        asking.plan();
    }
    if fields_fit {
        asking.ledger();
    }
    asking.found
}

struct Asking<'a> {
    input: &'a Input,
    lists: &'a Lists,
    region: Option<Region>,
    found: Noes,
}

impl Asking<'_> {
    fn no(&mut self, number: i64, step: usize, place: usize) {
        let refusal = Refusal {
            number,
            step,
            place,
        };
        let row = explain(self.input, self.lists, refusal, self.region);
        self.found.rows.push(row);
    }

    fn leave_out(&mut self, what: impl Into<String>) {
        self.found.left_out.push(what.into());
    }

    /// 1 and 2 of the case's bytes, then 10 to 12. Has each field a number in its range?
    fn fields(&mut self) -> bool {
        if let Err(refusal) = read_all(&self.input.case_bytes) {
            self.no(refusal.number, 0, refusal.place);
            self.leave_out("10 to 17 and 20 to 33: the case's numbers cannot be read");
            return false;
        }
        let fields = field_noes(&self.lists.case_list);
        self.found.left_out.extend(fields.left_out);
        for &(number, place) in &fields.noes {
            self.no(number, 0, place);
        }
        if !fields.noes.is_empty() {
            let why = "they are about rows whose fields are there and in their ranges";
            self.leave_out(format!("13 to 17 and 20 to 33: {why}"));
        }
        fields.noes.is_empty()
    }

    /// 13 to 17.
    fn items_of_case(&mut self) {
        let Some(case) = &self.lists.case else { return };
        let plan = Plan::new(case, &self.lists.plan_list);
        self.ask(&plan, of_case(case));
    }

    fn ask(&mut self, plan: &Plan, questions: Vec<Refusal>) {
        for Refusal {
            number,
            step,
            place,
        } in questions
        {
            let checks = checks_of_item(plan, number, step, place);
            if checks.iter().any(|check| !check.holds) {
                self.no(number, step, place);
            }
        }
    }

    /// 5 and 6, which are 1 and 2 of the plan's bytes.
    fn plan_bytes(&mut self) -> bool {
        let Err(refusal) = read_all(&self.input.plan_bytes) else {
            return true;
        };
        self.no(refusal.number + 4, 0, refusal.place);
        self.leave_out("20 to 33: the plan's numbers cannot be read");
        false
    }

    /// 20 to 33.
    fn plan(&mut self) {
        let Some(case) = &self.lists.case else { return };
        let head = rule_20(&self.lists.case_list, &self.lists.plan_list);
        if head.iter().any(|check| !check.holds) {
            self.no(20, 0, 0);
            self.leave_out(
                "21 to 33: without head and length it is not clear which row stands where",
            );
            return;
        }
        let plan = Plan::new(case, &self.lists.plan_list);
        self.ask(&plan, of_plan(case));
        for step in 1..=case.steps() {
            self.found.left_out.extend(unasked_of_arcs(&plan, step));
            self.found.left_out.extend(unasked_of_stations(&plan, step));
        }
    }

    /// 40 and 41.
    fn ledger(&mut self) {
        let (Some(case), Some(region)) = (&self.lists.case, self.region) else {
            return;
        };
        for number in [40, 41] {
            let checks = checks_of_region(case, number, region);
            if checks.iter().any(|check| !check.holds) {
                let place = if number == 40 {
                    stranger(case, region.set)
                } else {
                    0
                };
                self.no(number, 0, place);
            }
        }
    }
}

fn unasked_of_arcs(plan: &Plan, step: usize) -> Vec<String> {
    let one = |index: usize| {
        let (arc, row) = (&plan.case.arcs[index], plan.arc(step, index));
        let item = format!("of {}, step {step}", plan.case.arc_words(index));
        match mode(arc.kind, row.setting) {
            None => Some(format!(
                "25 to 27 {item}: its setting {} is unknown",
                row.setting
            )),
            Some(Mode::Raising) if row.machines < 0 => {
                let why = format!("its machines {} are no set", row.machines);
                Some(format!(
                    "26 on what its machines reach, and 27, {item}: {why}"
                ))
            }
            Some(_) => None,
        }
    };
    (0..plan.case.arcs.len()).filter_map(one).collect()
}

fn unasked_of_stations(plan: &Plan, step: usize) -> Vec<String> {
    let one = |index: usize| {
        let row = plan.station(step, index);
        let item = format!("of station {index}, step {step}");
        let states = plan.case.stations[index].states.len();
        let has_state = usize::try_from(row.state).is_ok_and(|state| state < states);
        match (chosen(plan, step, index), has_state) {
            (Some(_), true) => None,
            (Some(_), false) => Some(format!(
                "the rest of 30 {item}: it has no state {}",
                row.state
            )),
            (None, _) => {
                let why = format!("it has no direction {}", row.direction);
                Some(format!("the rest of 30, and 32, {item}: {why}"))
            }
        }
    };
    (0..plan.case.stations.len()).filter_map(one).collect()
}
