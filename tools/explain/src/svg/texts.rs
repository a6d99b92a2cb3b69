//! What is written at nodes, arcs and stations.

use gasplan_text::model::{COMBINED, Case, INNER, Plan, SHORTCUT, VALVE};
use gasplan_text::words::{self, grouped};

use super::fan::is_crowded;
use super::font::{Font, PLAIN};
use crate::arc_rules::backward;
use crate::check::wide;
use crate::explanation::Mark;
use crate::node_rules::flows;

pub const MARKED: &str = "#e00000";

/// With more nodes than these, numbers would lie over each other.
const MOST_WITH_NUMBERS: usize = 36;

/// The case, the step of a plan whose numbers are shown, and the item of a refusal.
#[derive(Clone, Copy)]
pub struct Texts<'a> {
    pub case: &'a Case,
    pub plan: Option<(&'a Plan<'a>, usize)>,
    pub mark: Option<Mark>,
}

impl Texts<'_> {
    pub fn font(&self, item: Mark) -> Font {
        let marked = self.mark == Some(item);
        let station = matches!(item, Mark::Station(_));
        Font {
            size: if station { 12 } else { 11 },
            bold: marked || station,
            fill: if marked { MARKED } else { "#333" },
            ..PLAIN
        }
    }

    /// The lines at an item; a node of a large network has none.
    pub fn lines(&self, item: Mark) -> Vec<String> {
        match item {
            Mark::Node(node) => self.node(node),
            // Where arcs lie close, there is room for one line.
            Mark::Arc(arc) if is_crowded(self.case, arc) => vec![self.arc(arc).join(", ")],
            Mark::Arc(arc) => self.arc(arc),
            Mark::Station(station) => vec![self.station(station)],
        }
    }

    /// Width and height of the lines at an item.
    pub fn size(&self, item: Mark) -> (f64, f64) {
        let (font, lines) = (self.font(item), self.lines(item));
        let widths = lines.iter().map(|line| font.width(line));
        (widths.fold(0.0, f64::max), font.height(lines.len()))
    }

    fn with_numbers(&self) -> bool {
        self.case.nodes.len() <= MOST_WITH_NUMBERS
    }

    fn node(&self, index: usize) -> Vec<String> {
        let (Some((plan, step)), true) = (self.plan, self.with_numbers()) else {
            return Vec::new();
        };
        let row = plan.node(step, index);
        let mut lines = vec![format!("p {}", grouped(wide(row.p)))];
        if self.case.nodes[index].kind != INNER {
            lines.push(format!("d {}", grouped(wide(row.d))));
        }
        lines
    }

    fn arc(&self, index: usize) -> Vec<String> {
        let name = format!("arc {index}");
        let Some((plan, step)) = self.plan else {
            return vec![name];
        };
        let (arc, row) = (&self.case.arcs[index], plan.arc(step, index));
        let setting = words::setting(arc.kind, row.setting).to_string();
        let combined = arc.kind == COMBINED && row.setting != 0;
        if !self.with_numbers() {
            return match combined {
                true => vec![name, setting],
                false => vec![name],
            };
        }
        let mut lines = match (arc.is_pipe(), self.is_still(index)) {
            (true, _) => vec![format!(
                "{name}: {} → {}",
                grouped(wide(row.a)),
                grouped(wide(row.b))
            )],
            (_, true) => vec![format!("{name}: {setting}")],
            _ => vec![format!(
                "{name}: {}",
                grouped((wide(row.a) - wide(row.b)).abs())
            )],
        };
        if combined {
            lines.push(setting);
        }
        if row.machines > 0 {
            lines.push(format!("machines {}", words::set(row.machines)));
        }
        lines
    }

    fn station(&self, index: usize) -> String {
        match self.plan {
            Some((plan, step)) => {
                let row = plan.station(step, index);
                format!(
                    "station {index}: direction {}, state {}",
                    row.direction, row.state
                )
            }
            None => format!("station {index}"),
        }
    }

    /// The setting that is shown, none without a plan.
    pub fn setting(&self, arc: usize) -> Option<i64> {
        self.plan.map(|(plan, step)| plan.arc(step, arc).setting)
    }

    /// Is the arc shut or off in the step that is shown?
    pub fn is_still(&self, arc: usize) -> bool {
        let kind = self.case.arcs[arc].kind;
        let switched = kind == VALVE || kind >= SHORTCUT;
        switched && self.setting(arc) == Some(0)
    }

    /// Does its setting or its gas go from its to end to its from end?
    pub fn goes_back(&self, arc: usize) -> bool {
        self.plan.is_some_and(|(plan, step)| {
            let (at_from, at_to) = flows(plan, step, arc);
            let setting = plan.arc(step, arc).setting;
            backward(&self.case.arcs[arc], setting) || at_from + at_to < 0
        })
    }

    /// What shows when an item is pointed at.
    pub fn title(&self, item: Mark) -> String {
        let name = match item {
            Mark::Node(node) => self.case.node_words(node),
            Mark::Arc(arc) => self.case.arc_words(arc),
            Mark::Station(station) => format!("station {station}"),
        };
        let setting = match item {
            Mark::Arc(arc) => self.setting(arc).map(|it| (self.case.arcs[arc].kind, it)),
            _ => None,
        };
        match setting.map(|(kind, setting)| words::setting(kind, setting)) {
            None | Some("") => name,
            Some(setting) => format!("{name}: {setting}"),
        }
    }
}

/// The name of an item, as fields are named.
pub fn address(item: Mark) -> String {
    match item {
        Mark::Node(node) => format!("node {node}"),
        Mark::Arc(arc) => format!("arc {arc}"),
        Mark::Station(station) => format!("station {station}"),
    }
}
