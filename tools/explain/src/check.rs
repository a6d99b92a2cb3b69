//! The parts of a question, each with both sides of its comparison and how far they are apart.

use gasplan_text::words;

use crate::amount::{Amount, Unit};
use crate::bound::Bound;

/// One part of a question.
pub struct Check {
    pub holds: bool,
    /// Both sides, and by how much it fails where it does not hold.
    pub text: String,
    /// A further line of the text.
    pub more: Option<String>,
    /// What is left, where the part is a bound that a plan can come close to.
    pub margin: Option<Margin>,
    /// Of a comparison: what is left of it, below 0 where it does not hold, and its numbers.
    room: Option<(Amount, String)>,
}

/// What is left of a bound.
#[derive(Clone, Debug)]
pub struct Margin {
    pub bound: Bound,
    pub left: Amount,
    /// Both sides.
    pub numbers: String,
}

/// A side of a comparison: its words, which end in its number, and the number.
pub type Side<'a> = (&'a str, i128);

pub fn check(holds: bool, text: impl Into<String>) -> Check {
    Check {
        holds,
        text: text.into(),
        more: None,
        margin: None,
        room: None,
    }
}

/// Is the first at most the second?
pub fn at_most((side, is): Side, (bound, most): Side, unit: Unit) -> Check {
    compared(
        side,
        "over",
        "at most",
        bound,
        Amount {
            count: most - is,
            unit,
        },
    )
}

/// Is the first at least the second?
pub fn at_least((side, is): Side, (bound, least): Side, unit: Unit) -> Check {
    compared(
        side,
        "below",
        "at least",
        bound,
        Amount {
            count: is - least,
            unit,
        },
    )
}

fn compared(side: &str, fails: &str, holds: &str, bound: &str, left: Amount) -> Check {
    let by = Amount {
        count: -left.count,
        ..left
    };
    Check {
        room: Some((left, format!("{side}, {holds} {bound}"))),
        ..check(left.count >= 0, format!("{side}, {fails} {bound} by {by}"))
    }
}

/// Are the two the same?
pub fn same((side, is): Side, (other, wanted): Side, unit: Unit) -> Check {
    let by = Amount {
        count: (is - wanted).abs(),
        unit,
    };
    check(is == wanted, format!("{side}, not {other}: off by {by}"))
}

/// Is a number within its range? A number that counts something says by how much it is not.
pub fn within(name: &str, number: i64, least: i64, most: i64, unit: Option<Unit>) -> Check {
    let (is, range) = (wide(number), format!("range {least} to {most}"));
    if least > most {
        return check(
            false,
            format!("{name} = {number}, and no number will do: its {range} is empty"),
        );
    }
    let (side, end) = if number < least {
        ("below", least)
    } else {
        ("above", most)
    };
    let by = unit.map(|unit| Amount {
        count: (is - wide(end)).abs(),
        unit,
    });
    let by = by.map_or(String::new(), |by| format!(" by {by}"));
    let left = (is - wide(least)).min(wide(most) - is);
    Check {
        room: unit.map(|unit| {
            (
                Amount { count: left, unit },
                format!("{name} = {number}, {range}"),
            )
        }),
        ..check(
            left >= 0,
            format!("{name} = {number}, {side} {end}{by} ({range})"),
        )
    }
}

/// Is a number that has to be 0?
pub fn zero(name: &str, number: i64, why: &str) -> Check {
    check(number == 0, format!("{name} = {number}, not 0 ({why})"))
}

/// Has the set only items of the other?
pub fn subset(name: &str, set: i64, of: i64, what: &str) -> Check {
    let text = match set < 0 {
        true => format!("{name} = {set}: a negative number is no set"),
        false => format!(
            "{name} {} holds {}, {what} {}",
            words::set(set),
            words::set(set & !of),
            words::set(of)
        ),
    };
    check(set >= 0 && set & !of == 0, text)
}

impl Check {
    /// Says why it is asked.
    pub fn because(mut self, why: &str) -> Check {
        self.text.push_str(&format!(" ({why})"));
        self
    }

    pub fn and(mut self, line: String) -> Check {
        self.more = Some(line);
        self
    }

    /// Counts the comparison as a bound with a margin.
    pub fn margin(mut self, bound: Bound) -> Check {
        self.margin = self.room.clone().map(|(left, numbers)| Margin {
            bound,
            left,
            numbers,
        });
        self
    }

    /// As `margin`, where only the upper end of the range counts: its lower end is the 0 of what is not used.
    pub fn margin_above(mut self, bound: Bound, left: i64) -> Check {
        let left = |unit| Amount {
            count: wide(left),
            unit,
        };
        self.margin = self.room.clone().map(|(room, numbers)| Margin {
            bound,
            left: left(room.unit),
            numbers,
        });
        self
    }
}

pub fn wide(number: i64) -> i128 {
    i128::from(number)
}

/// A number as it stands after a sign: a negative one in parentheses.
pub fn term(number: impl Into<i128>) -> String {
    let number = number.into();
    match number < 0 {
        true => format!("({number})"),
        false => number.to_string(),
    }
}

/// Numbers with a plus between and their sum, as `1150 + 1100 = 2250`; one alone as it is.
pub fn sum(numbers: &[i64]) -> String {
    let texts: Vec<String> = numbers.iter().map(i64::to_string).collect();
    let sum: i128 = numbers.iter().map(|&number| wide(number)).sum();
    match texts.len() {
        0 | 1 => sum.to_string(),
        _ => format!("{} = {sum}", texts.join(" + ")),
    }
}
