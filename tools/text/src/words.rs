//! Words and sets that stand for numbers.

use crate::layout::Form;

pub const NODE_KINDS: [&str; 3] = ["inner", "source", "sink"];
pub const ARC_KINDS: [&str; 7] = [
    "valve",
    "regulator",
    "pipe",
    "shortcut",
    "regulating",
    "compressor",
    "combined",
];

/// The words of a form, each at the number that it stands for.
pub fn words(form: Form) -> &'static [&'static str] {
    match form {
        Form::NodeKind => &NODE_KINDS,
        Form::ArcKind => &ARC_KINDS,
        Form::Number | Form::Set => &[],
    }
}

/// The word for a number of a form with words.
pub fn word(form: Form, number: i64) -> Option<&'static str> {
    let at = usize::try_from(number).ok()?;
    words(form).get(at).copied()
}

/// A kind of arc in words, also where the number is no kind.
pub fn arc_kind(number: i64) -> &'static str {
    word(Form::ArcKind, number).unwrap_or("arc of unknown kind")
}

pub fn node_kind(number: i64) -> &'static str {
    word(Form::NodeKind, number).unwrap_or("unknown kind")
}

/// What a setting means on an arc of this kind.
pub fn setting(kind: i64, setting: i64) -> &'static str {
    match (kind, setting) {
        (0, 0) => "shut",
        (0, 1) => "open",
        (1 | 2, 0) => "",
        (3..=6, 0) => "off",
        (3 | 4, 1) | (5, 1) => "forward",
        (3 | 4, 2) | (5, 2) => "backward",
        (6, 1) => "regulating forward",
        (6, 2) => "regulating backward",
        (6, 3) => "compressing forward",
        (6, 4) => "compressing backward",
        _ => "unknown",
    }
}

/// The items of a set. A negative number is no set and has none.
pub fn items(set: i64) -> Vec<usize> {
    let bits = u64::try_from(set).unwrap_or(0);
    (0..63).filter(|item| bits >> item & 1 == 1).collect()
}

/// A set as people write it, as `{0 3}`; a negative number as the number.
pub fn set(number: i64) -> String {
    if number < 0 {
        return number.to_string();
    }
    let items: Vec<String> = items(number).iter().map(usize::to_string).collect();
    format!("{{{}}}", items.join(" "))
}

/// A number with a comma after each three digits, as `10,000,000`.
pub fn grouped(number: i128) -> String {
    let digits = number.unsigned_abs().to_string();
    let mut text = String::new();
    for (at, digit) in digits.chars().enumerate() {
        if at > 0 && (digits.len() - at).is_multiple_of(3) {
            text.push(',');
        }
        text.push(digit);
    }
    match number < 0 {
        true => format!("-{text}"),
        false => text,
    }
}
