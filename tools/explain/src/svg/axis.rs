//! Numbers along an axis: at round steps, and no two of them written the same.

use gasplan_text::words::grouped;

/// From where to where an axis goes, and the numbers that are written at it.
pub struct Axis {
    pub low: i128,
    pub high: i128,
    pub ticks: Vec<(i128, String)>,
}

const MINUTE: i128 = 60;
const HOUR: i128 = 60 * MINUTE;
const DAY: i128 = 24 * HOUR;

/// Steps between times, in s, that a clock has a use for.
const TIME_STEPS: [i128; 24] = [
    1,
    2,
    5,
    10,
    15,
    30,
    MINUTE,
    2 * MINUTE,
    5 * MINUTE,
    10 * MINUTE,
    15 * MINUTE,
    30 * MINUTE,
    HOUR,
    2 * HOUR,
    3 * HOUR,
    6 * HOUR,
    12 * HOUR,
    DAY,
    2 * DAY,
    5 * DAY,
    10 * DAY,
    20 * DAY,
    50 * DAY,
    100 * DAY,
];

impl Axis {
    /// Masses in g, at 1, 2 or 5 times a power of ten, in at most so many steps.
    pub fn of_masses(numbers: impl Iterator<Item = i128>, most: i128) -> Axis {
        let (mut low, mut high) = numbers.fold((i128::MAX, i128::MIN), |(low, high), number| {
            (low.min(number), high.max(number))
        });
        if low >= high {
            // One number alone has some room around it; none at all stands for 0.
            let only = if low == high { low } else { 0 };
            (low, high) = (only - i128::from(only != 0), only + 1);
        }
        let step = round_step(low, high, most);
        let (low, high) = (low.div_euclid(step), -(-high).div_euclid(step));
        let ticks = (low..=high).map(|tick| (tick * step, mass(tick * step, step)));
        Axis {
            low: low * step,
            high: high * step,
            ticks: ticks.collect(),
        }
    }

    /// Times from 0 to an end, in s, in at most so many steps; as hours and minutes.
    pub fn of_times(end: i64, most: i128) -> Axis {
        let end = i128::from(end).max(1);
        let fits = |step: &i128| end / step <= most;
        let last = TIME_STEPS[TIME_STEPS.len() - 1];
        let step = TIME_STEPS.into_iter().find(fits).unwrap_or(last);
        let ticks = (0..=end / step).map(|tick| (tick * step, time(tick * step, step)));
        Axis {
            low: 0,
            high: end,
            ticks: ticks.collect(),
        }
    }

    /// How far along the axis a number stands, from 0 to 1.
    pub fn share(&self, number: i128) -> f64 {
        (number - self.low) as f64 / (self.high - self.low) as f64
    }
}

/// The least of 1, 2, 5, 10, 20, ... that needs at most so many steps from low to high.
fn round_step(low: i128, high: i128, most: i128) -> i128 {
    let fits = |step: i128| -(-high).div_euclid(step) - low.div_euclid(step) <= most.max(2);
    let mut power = 1;
    loop {
        let found = [1, 2, 5].map(|times| times * power).into_iter();
        if let Some(step) = found.into_iter().find(|&step| fits(step)) {
            return step;
        }
        power *= 10;
    }
}

/// In grams, kilograms or tonnes: the largest that the step is a whole number of.
fn mass(number: i128, step: i128) -> String {
    let (size, name) = match step {
        step if step % 1_000_000 == 0 => (1_000_000, "t"),
        step if step % 1_000 == 0 => (1_000, "kg"),
        _ => (1, "g"),
    };
    format!("{} {name}", grouped(number / size))
}

/// Hours and minutes, and seconds where the step is no whole number of minutes.
fn time(number: i128, step: i128) -> String {
    let (hours, minutes, seconds) = (number / HOUR, number / MINUTE % 60, number % MINUTE);
    match step % MINUTE == 0 {
        true => format!("{hours}:{minutes:02}"),
        false => format!("{hours}:{minutes:02}:{seconds:02}"),
    }
}
