//! The region balance over time.

use gasplan_text::model::Case;
use gasplan_text::words::set;

use super::axis::Axis;
use super::canvas::Canvas;
use super::font::{Font, PLAIN};
use super::point::{Point, at};
use crate::balance::{Balance, StepBalance};
use crate::request::all_nodes;

/// Height of one panel, and the room above it for its legend and below it for times.
const PANEL: f64 = 110.0;
const ABOVE: f64 = 24.0;
const BELOW: f64 = 28.0;
const PANELS: usize = 3;
/// Masses are written at most at so many steps, times at most so many pixels apart.
const MOST_MASSES: i128 = 4;
const TIME_ROOM: f64 = 66.0;
/// Bars are at least so wide and at most so wide.
const BAR: (f64, f64) = (1.2, 60.0);

const GAS: &str = "#1f6fb2";
const BROUGHT: &str = "#2e8b57";
const OTHER: &str = "#9a9a9a";
const RESIDUAL: &str = "#d07000";

const TITLE: Font = Font {
    size: 13,
    bold: true,
    ..PLAIN
};
const NUMBER: Font = Font { size: 11, ..PLAIN };

/// Where the panels stand.
pub struct Chart<'a> {
    pub case: &'a Case,
    pub at: Point,
    pub width: f64,
}

/// What one panel shows: numbers by step, and what they are with their colours.
struct Series<'a> {
    legend: &'a [(&'a str, &'a str)],
    steps: Vec<Vec<i128>>,
    /// Numbers as bars that begin at 0, or as a line that begins at time 0.
    bars: bool,
    masses: Axis,
}

/// One panel: its frame and its axes.
struct Panel<'a> {
    at: Point,
    width: f64,
    times: &'a Axis,
    masses: &'a Axis,
}

impl Panel<'_> {
    fn x(&self, time: i64) -> f64 {
        self.at.x + self.width * self.times.share(i128::from(time))
    }

    fn y(&self, mass: i128) -> f64 {
        self.at.y + PANEL * (1.0 - self.masses.share(mass))
    }
}

impl Chart<'_> {
    /// Draws title and panels and gives the height that they take.
    pub fn draw(&self, canvas: &mut Canvas, balance: &Balance) -> f64 {
        let title = self.title(balance);
        canvas.open("class=\"balance\"", &title);
        let mut top = self.at.y;
        for line in TITLE.wrapped(&title, self.width) {
            canvas.text(at(self.at.x, top + TITLE.base(0)), TITLE, &line);
            top += TITLE.height(1);
        }
        let all = series(&balance.steps);
        let labels = all.iter().flat_map(|it| &it.masses.ticks);
        let widest = labels.map(|(_, text)| NUMBER.width(text));
        let left = widest.fold(0.0, f64::max) + 12.0;
        let width = self.width - left;
        let end = self.case.times.last().copied().unwrap_or(0);
        let times = Axis::of_times(end, (width / TIME_ROOM) as i128);
        for series in &all {
            let panel = Panel {
                at: at(self.at.x + left, top + ABOVE),
                width,
                times: &times,
                masses: &series.masses,
            };
            self.panel(canvas, &panel, series);
            top += ABOVE + PANEL + BELOW;
        }
        canvas.close();
        top - self.at.y
    }

    fn title(&self, balance: &Balance) -> String {
        let whose = match balance.vouched {
            true => "by the library's ledger",
            false => "by sums made here: the plan is refused, so no ledger vouches for them",
        };
        let nodes = match balance.set == all_nodes(self.case.nodes.len()) {
            true => "all nodes".to_string(),
            false => format!("the nodes {}", set(balance.set)),
        };
        format!("balance of {nodes}, {whose}")
    }

    fn panel(&self, canvas: &mut Canvas, panel: &Panel, series: &Series) {
        let names: Vec<&str> = series.legend.iter().map(|(name, _)| *name).collect();
        canvas.open("class=\"panel\"", &names.join(", "));
        let look = "class=\"frame\" fill=\"#fafafa\" stroke=\"#bbbbbb\"";
        canvas.rect(panel.at, panel.width, PANEL, look);
        legend(canvas, panel.at, series.legend);
        masses(canvas, panel);
        self.step_marks(canvas, panel);
        match series.bars {
            true => self.bars(canvas, panel, series),
            false => self.line(canvas, panel, series),
        }
        times(canvas, panel);
        canvas.close();
    }

    /// A short mark where each step ends.
    fn step_marks(&self, canvas: &mut Canvas, panel: &Panel) {
        for &time in &self.case.times[1..] {
            let foot = at(panel.x(time), panel.at.y + PANEL);
            let top = foot.minus(at(0.0, 5.0));
            canvas.line(foot, top, "class=\"step\" stroke=\"#bbbbbb\"");
        }
    }

    fn line(&self, canvas: &mut Canvas, panel: &Panel, series: &Series) {
        let masses = series.steps.iter().flatten();
        let points = self.case.times.iter().zip(masses);
        let points: Vec<String> = points
            .map(|(&time, &mass)| format!("{:.1},{:.1}", panel.x(time), panel.y(mass)))
            .collect();
        let (_, colour) = series.legend[0];
        let look = format!("fill=\"none\" stroke=\"{colour}\" stroke-width=\"2.5\"");
        let points = format!("points=\"{}\" {look}", points.join(" "));
        canvas.element("polyline", &points);
    }

    /// The numbers of each step beside each other, in the middle of its time.
    fn bars(&self, canvas: &mut Canvas, panel: &Panel, series: &Series) {
        for (step, masses) in series.steps.iter().enumerate() {
            let (start, end) = (self.case.times[step], self.case.times[step + 1]);
            let (start, end) = (panel.x(start), panel.x(end));
            let width = (0.36 * (end - start)).clamp(BAR.0, BAR.1);
            // A step too short to be seen at either end stays within the frame.
            let (least, most) = (panel.at.x + width, panel.at.x + panel.width - width);
            let middle = ((start + end) / 2.0).clamp(least, most);
            for (place, (&mass, (_, colour))) in masses.iter().zip(series.legend).enumerate() {
                let (zero, end_y) = (panel.y(0), panel.y(mass));
                let left = middle + width * (place as f64 - 1.0);
                let corner = at(left, zero.min(end_y));
                let height = (zero - end_y).abs();
                canvas.rect(corner, width, height, &format!("fill=\"{colour}\""));
            }
        }
        let zero = at(panel.at.x, panel.y(0));
        let end = zero.plus(at(panel.width, 0.0));
        canvas.line(zero, end, "stroke=\"#555555\"");
    }
}

/// Gas, what moved it, and how far the two are from each other.
fn series(steps: &[StepBalance]) -> [Series<'static>; PANELS] {
    let first = steps.first().map(|step| vec![step.gas_before]);
    let rest = steps.iter().map(|step| vec![step.gas_after]);
    let change = |step: &StepBalance| step.gas_after - step.gas_before;
    let moved = |step: &StepBalance| vec![step.brought_in, change(step)];
    let off = |step: &StepBalance| vec![(change(step) - step.brought_in).abs(), step.residual];
    [
        Series::line(
            &[("gas in the inner pipes", GAS)],
            first.into_iter().chain(rest).collect(),
        ),
        Series::bars(
            &[
                ("brought in during the step", BROUGHT),
                ("change of gas in the inner pipes", OTHER),
            ],
            steps.iter().map(moved).collect(),
        ),
        Series::bars(
            &[
                ("change less brought in, its size", OTHER),
                ("residual, which bounds it", RESIDUAL),
            ],
            steps.iter().map(off).collect(),
        ),
    ]
}

impl<'a> Series<'a> {
    fn line(legend: &'a [(&'a str, &'a str)], steps: Vec<Vec<i128>>) -> Series<'a> {
        Series {
            masses: Axis::of_masses(steps.iter().flatten().copied(), MOST_MASSES),
            bars: false,
            legend,
            steps,
        }
    }

    fn bars(legend: &'a [(&'a str, &'a str)], steps: Vec<Vec<i128>>) -> Series<'a> {
        let numbers = steps.iter().flatten().copied().chain([0]);
        Series {
            masses: Axis::of_masses(numbers, MOST_MASSES),
            bars: true,
            legend,
            steps,
        }
    }
}

/// What the colours of a panel mean, above its frame.
fn legend(canvas: &mut Canvas, corner: Point, names: &[(&str, &str)]) {
    let mut key = corner.minus(at(0.0, 17.0));
    for (name, colour) in names {
        canvas.rect(key, 10.0, 8.0, &format!("fill=\"{colour}\""));
        canvas.text(key.plus(at(14.0, 8.0)), NUMBER, name);
        key.x += 34.0 + NUMBER.width(name);
    }
}

/// Masses at the left of a panel, with a faint line across for each.
fn masses(canvas: &mut Canvas, panel: &Panel) {
    canvas.open("class=\"masses\"", "mass");
    for (mass, label) in &panel.masses.ticks {
        let left = at(panel.at.x, panel.y(*mass));
        let right = left.plus(at(panel.width, 0.0));
        canvas.line(left, right, "stroke=\"#e6e6e6\"");
        let font = Font {
            anchor: "end",
            ..NUMBER
        };
        canvas.text(left.plus(at(-8.0, 4.0)), font, label);
    }
    canvas.close();
}

/// Times below a panel.
fn times(canvas: &mut Canvas, panel: &Panel) {
    canvas.open("class=\"times\"", "time in hours and minutes");
    let with_seconds = panel.times.ticks[0].1.len() > "0:00".len();
    let form = if with_seconds { "h:mm:ss" } else { "h:mm" };
    let font = Font {
        anchor: "end",
        fill: "#777",
        ..NUMBER
    };
    let corner = panel.at.plus(at(panel.width, -9.0));
    canvas.text(corner, font, &format!("time in {form}"));
    for (time, label) in &panel.times.ticks {
        let x = panel.at.x + panel.width * panel.times.share(*time);
        let foot = at(x, panel.at.y + PANEL);
        canvas.line(foot, foot.plus(at(0.0, 4.0)), "stroke=\"#888888\"");
        let font = Font {
            anchor: "middle",
            size: 10,
            ..PLAIN
        };
        canvas.text(foot.plus(at(0.0, 17.0)), font, label);
    }
    canvas.close();
}
