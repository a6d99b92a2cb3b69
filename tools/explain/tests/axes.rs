//! The axes of the balance: to scale, at round steps, and no two labels the same.

mod common;
mod drawing;

use drawing::Element;
use drawing::samples::{Sample, samples};
use drawing::shapes::Area;
use explain::balance::{Balance, of_library};

const MINUTE: i64 = 60;
const HOUR: i64 = 60 * MINUTE;
/// Steps between times that a clock has, below a day, in s.
const CLOCK: [i64; 17] = [
    1, 2, 5, 10, 15, 30, 60, 120, 300, 600, 900, 1_800, 3_600, 7_200, 10_800, 21_600, 43_200,
];
/// Three coordinates, each written with one digit after the point, are off by this at most.
const ROUNDING: f64 = 0.16;

/// One chart: its frame, and the elements in it.
struct Panel<'a> {
    frame: Area,
    elements: Vec<&'a Element>,
}

impl<'a> Panel<'a> {
    /// The marks of an axis: the line's place and the label at it.
    fn ticks(&self, axis: &str, place: &str) -> Vec<(f64, &'a Element)> {
        let within = |name: &'static str| {
            let of_axis = move |it: &&&Element| it.is(name, "") && it.within(axis).is_some();
            self.elements.iter().filter(of_axis).copied()
        };
        let lines = within("line").map(|it| it.number(place));
        // What the axis is, is said in its corner and is no label.
        let labels = within("text").filter(|it| !it.text.starts_with("time in"));
        let ticks: Vec<_> = lines.zip(labels).collect();
        assert_eq!(ticks.len(), within("line").count());
        assert!(ticks.len() > 1);
        ticks
    }

    /// Masses at the lower and at the upper edge, in g.
    fn masses(&self) -> (i128, i128) {
        let ticks = self.ticks("masses", "y1");
        let [(_, first), .., (_, last)] = &ticks[..] else {
            panic!("two masses at least");
        };
        (grams(&first.text), grams(&last.text))
    }

    fn x(&self, time: i64, end: i64) -> f64 {
        let (left, right) = (self.frame.low.0, self.frame.high.0);
        left + (right - left) * time as f64 / end as f64
    }

    fn y(&self, mass: i128) -> f64 {
        let (low, high) = self.masses();
        let (top, foot) = (self.frame.low.1, self.frame.high.1);
        foot - (foot - top) * (mass - low) as f64 / (high - low) as f64
    }

    /// The rectangles within the frame, those of no height with them.
    fn bars(&self) -> Vec<Area> {
        let rects = self
            .elements
            .iter()
            .filter(|it| it.is("rect", "") && it.get("class") != "frame");
        let areas = rects.map(|it| it.rect_area());
        areas
            .filter(|area| area.high.1 > self.frame.low.1 - 5.0)
            .collect()
    }
}

/// The three charts of a picture; none where it has no balance.
fn panels(sample: &Sample) -> Vec<Panel<'_>> {
    let frames = sample.drawing.all("rect", "frame");
    let panel = |frame: &Element| Panel {
        frame: frame.rect_area(),
        elements: {
            let all = sample.drawing.elements.iter();
            all.filter(|it| it.within("panel") == frame.within("panel"))
                .collect()
        },
    };
    frames.map(panel).collect()
}

/// The samples with a balance, and their charts.
fn charts() -> Vec<(&'static Sample, Vec<Panel<'static>>)> {
    let all = samples().iter().map(|sample| (sample, panels(sample)));
    let charts: Vec<_> = all.filter(|(_, panels)| !panels.is_empty()).collect();
    assert!(charts.len() > 20 && charts.iter().all(|(_, panels)| panels.len() == 3));
    charts
}

fn end(sample: &Sample) -> i64 {
    sample.case.times[sample.case.steps()]
}

/// Seconds of hours and minutes, or of hours, minutes and seconds.
fn seconds(label: &str) -> i64 {
    let parts: Vec<i64> = label
        .split(':')
        .map(|it| it.parse().expect(label))
        .collect();
    match parts[..] {
        [hours, minutes] if minutes < 60 => hours * HOUR + minutes * MINUTE,
        [hours, minutes, rest] if minutes < 60 && rest < 60 => {
            hours * HOUR + minutes * MINUTE + rest
        }
        _ => panic!("{label} is no time"),
    }
}

fn grams(label: &str) -> i128 {
    let (number, unit) = label.split_once(' ').expect(label);
    let number: i128 = number.replace(',', "").parse().expect(label);
    match unit {
        "g" => number,
        "kg" => 1_000 * number,
        "t" => 1_000_000 * number,
        _ => panic!("{label} is no mass"),
    }
}

fn check_labels(name: &str, labels: &[&Element]) {
    for (place, label) in labels.iter().enumerate() {
        for other in &labels[..place] {
            assert_ne!(label.text, other.text, "{name}");
            let over = label.text_area().overlaps(&other.text_area());
            assert!(!over, "{name}: {} over {}", label.text, other.text);
        }
    }
}

#[test]
fn times_are_to_scale_and_at_steps_of_a_clock() {
    for (sample, panels) in charts() {
        let (name, end) = (&sample.name, end(sample));
        for panel in panels {
            let ticks = panel.ticks("times", "x1");
            check_labels(
                name,
                &ticks.iter().map(|(_, label)| *label).collect::<Vec<_>>(),
            );
            let times: Vec<i64> = ticks
                .iter()
                .map(|(_, label)| seconds(&label.text))
                .collect();
            let step = times[1];
            assert!(
                CLOCK.contains(&step) || step % (24 * HOUR) == 0,
                "{name}: {step}"
            );
            for (count, ((x, label), time)) in (0..).zip(ticks.iter().zip(&times)) {
                assert_eq!(*time, count * step, "{name}");
                assert!(
                    (x - panel.x(*time, end)).abs() < ROUNDING,
                    "{name}: {}",
                    label.text
                );
                assert!(
                    (x - label.number("x")).abs() < ROUNDING,
                    "{name}: {}",
                    label.text
                );
            }
            let last = times[times.len() - 1];
            assert!(last <= end && end < last + step, "{name}: {last} of {end}");
        }
    }
}

#[test]
fn masses_are_at_equal_round_steps() {
    for (sample, panels) in charts() {
        for panel in panels {
            let name = &sample.name;
            let ticks = panel.ticks("masses", "y1");
            check_labels(
                name,
                &ticks.iter().map(|(_, label)| *label).collect::<Vec<_>>(),
            );
            let masses: Vec<i128> = ticks.iter().map(|(_, label)| grams(&label.text)).collect();
            let mut step = masses[1] - masses[0];
            assert!(masses.windows(2).all(|it| it[1] - it[0] == step), "{name}");
            while step > 5 && step % 10 == 0 {
                step /= 10;
            }
            assert!([1, 2, 5].contains(&step), "{name}: {masses:?}");
            for ((y, label), mass) in ticks.iter().zip(&masses) {
                assert!(
                    (y - panel.y(*mass)).abs() < ROUNDING,
                    "{name}: {}",
                    label.text
                );
                let middle = (label.text_area().low.1 + label.text_area().high.1) / 2.0;
                assert!((y - middle).abs() < 2.0, "{name}: {}", label.text);
            }
        }
    }
}

#[test]
fn steps_end_at_their_times() {
    for (sample, panels) in charts() {
        for panel in panels {
            let marks = panel.elements.iter().filter(|it| it.is("line", "step"));
            let marks: Vec<f64> = marks.map(|it| it.number("x1")).collect();
            assert_eq!(marks.len(), sample.case.steps(), "{}", sample.name);
            for (x, &time) in marks.iter().zip(&sample.case.times[1..]) {
                assert!(
                    (x - panel.x(time, end(sample))).abs() < ROUNDING,
                    "{}",
                    sample.name
                );
            }
        }
    }
}

/// What the library's ledger has of all nodes, step by step; none of a refused plan.
fn balance(sample: &Sample) -> Option<Balance> {
    let set = (1_i64 << sample.case.nodes.len()) - 1;
    of_library(&sample.case_list, &sample.plan, set, sample.case.steps()).ok()
}

#[test]
fn gas_is_drawn_as_the_ledger_has_it() {
    for (sample, panels) in charts() {
        let Some(balance) = balance(sample) else {
            continue;
        };
        let line = panels[0].elements.iter().find(|it| it.is("polyline", ""));
        let points = line.expect("a line").get("points").split(' ');
        let points: Vec<(f64, f64)> = points.map(drawing::point).collect();
        let first = balance.steps.first().map(|step| step.gas_before);
        let gas = first
            .into_iter()
            .chain(balance.steps.iter().map(|step| step.gas_after));
        let gas: Vec<i128> = gas.collect();
        assert_eq!(points.len(), gas.len());
        for ((x, y), (&time, mass)) in points.iter().zip(sample.case.times.iter().zip(gas)) {
            assert!(
                (x - panels[0].x(time, end(sample))).abs() < ROUNDING,
                "{}",
                sample.name
            );
            assert!((y - panels[0].y(mass)).abs() < ROUNDING, "{}", sample.name);
        }
    }
}

#[test]
fn bars_stand_in_their_steps_and_are_as_high_as_the_ledger_has_it() {
    for (sample, panels) in charts() {
        let Some(balance) = balance(sample) else {
            continue;
        };
        let pairs = balance.steps.iter().map(|step| {
            let change = step.gas_after - step.gas_before;
            let off = (change - step.brought_in).abs();
            [[step.brought_in, change], [off, step.residual]]
        });
        for (step, both) in pairs.enumerate() {
            for (panel, masses) in panels[1..].iter().zip(both) {
                let [from, to] =
                    [step, step + 1].map(|it| panel.x(sample.case.times[it], end(sample)));
                let bars = panel.bars();
                assert_eq!(bars.len(), 2 * sample.case.steps(), "{}", sample.name);
                for (bar, mass) in bars[2 * step..].iter().zip(masses) {
                    let (low, high) = (panel.y(mass.max(0)), panel.y(mass.min(0)));
                    assert!(
                        (bar.low.1 - low).abs() < 2.0 * ROUNDING,
                        "{}: {mass}",
                        sample.name
                    );
                    assert!(
                        (bar.high.1 - high).abs() < 2.0 * ROUNDING,
                        "{}: {mass}",
                        sample.name
                    );
                    // A step too short to be seen still has bars of a pixel or so.
                    let inside = bar.low.0 > from - 2.5 && bar.high.0 < to + 2.5;
                    assert!(inside, "{}: step {}", sample.name, step + 1);
                }
            }
        }
    }
}
