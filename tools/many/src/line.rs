//! A finding as one line: of CSV, or a JSON object.

use std::ffi::OsStr;
use std::os::unix::ffi::OsStrExt;

use gasplan::Totals;
use gasplan::program::Verdict;

use crate::folder::Finding;

#[derive(Clone, Copy, Debug, PartialEq, Eq)]
pub enum Form {
    Csv,
    Json,
}

/// The names of a refusal's numbers, and of the totals.
const REFUSAL: [&str; 3] = ["number", "step", "place"];
const TOTALS: [&str; 6] = [
    "pressure_slack",
    "demand_slack",
    "switching_cost",
    "residual",
    "gas_at_start",
    "gas_at_end",
];

impl Form {
    /// What stands before the first line.
    pub fn header(self) -> String {
        match self {
            Form::Csv => {
                let numbers = [&REFUSAL[..], &TOTALS[..]].concat().join(",");
                format!("folder,verdict,{numbers},note\n")
            }
            Form::Json => String::new(),
        }
    }

    /// A folder's line, with its end.
    pub fn line(self, folder: &OsStr, finding: &Finding) -> Vec<u8> {
        match self {
            Form::Csv => csv(folder, finding),
            Form::Json => json(folder, finding).into_bytes(),
        }
    }
}

/// The verdict in a word or two.
fn word(verdict: Option<Verdict>) -> &'static str {
    match verdict {
        Some(Verdict::Judged(Ok(_))) => "accepted",
        Some(Verdict::Judged(Err(_))) => "refused",
        Some(Verdict::TooLong) => "too long",
        None => "no verdict",
    }
}

/// The verdict's numbers, with their names.
fn numbers(verdict: Option<Verdict>) -> Vec<(&'static str, i128)> {
    match verdict {
        Some(Verdict::Judged(Ok(totals))) => {
            let figures = figures(&totals).map(i128::from);
            TOTALS.into_iter().zip(figures).collect()
        }
        Some(Verdict::Judged(Err(refusal))) => {
            let [step, place] = [refusal.step, refusal.place].map(|index| index as i128);
            let figures = [i128::from(refusal.number), step, place];
            REFUSAL.into_iter().zip(figures).collect()
        }
        Some(Verdict::TooLong) | None => Vec::new(),
    }
}

fn figures(totals: &Totals) -> [i64; 6] {
    [
        totals.pressure_slack,
        totals.demand_slack,
        totals.switching_cost,
        totals.residual,
        totals.gas_at_start,
        totals.gas_at_end,
    ]
}

/// A folder's name stands as it is, whatever bytes it has.
fn csv(folder: &OsStr, finding: &Finding) -> Vec<u8> {
    let known = numbers(finding.verdict);
    let mut line = csv_field(folder.as_bytes());
    line.push(b',');
    line.extend_from_slice(word(finding.verdict).as_bytes());
    for name in REFUSAL.iter().chain(&TOTALS) {
        line.push(b',');
        if let Some((_, number)) = known.iter().find(|(known, _)| known == name) {
            line.extend_from_slice(number.to_string().as_bytes());
        }
    }
    line.push(b',');
    line.extend(csv_field(finding.note.as_bytes()));
    line.push(b'\n');
    line
}

/// In quotes where a sign of it means something in CSV.
fn csv_field(text: &[u8]) -> Vec<u8> {
    if !text.iter().any(|sign| b",\"\r\n".contains(sign)) {
        return text.to_vec();
    }
    let mut field = vec![b'"'];
    for &sign in text {
        if sign == b'"' {
            field.push(b'"');
        }
        field.push(sign);
    }
    field.push(b'"');
    field
}

/// What is no UTF-8 in a folder's name stands as U+FFFD.
fn json(folder: &OsStr, finding: &Finding) -> String {
    let name = json_string(&folder.to_string_lossy());
    let mut line = format!(r#"{{"folder":{name},"verdict":"{}""#, word(finding.verdict));
    for (name, number) in numbers(finding.verdict) {
        line.push_str(&format!(r#","{name}":{number}"#));
    }
    if !finding.note.is_empty() {
        line.push_str(&format!(r#","note":{}"#, json_string(&finding.note)));
    }
    line.push_str("}\n");
    line
}

fn json_string(text: &str) -> String {
    let mut string = String::from('"');
    for sign in text.chars() {
        match sign {
            '"' | '\\' => string.extend(['\\', sign]),
            '\u{0}'..='\u{1F}' => string.push_str(&format!("\\u{:04x}", u32::from(sign))),
            _ => string.push(sign),
        }
    }
    string.push('"');
    string
}

#[cfg(test)]
mod tests {
    use super::*;

    fn open(note: &str) -> Finding {
        Finding {
            verdict: None,
            note: note.to_string(),
        }
    }

    #[test]
    fn signs_of_csv_are_quoted() {
        let line = Form::Csv.line(OsStr::from_bytes(b"a,\"b\"\n\xFF"), &open("why, then"));
        let expected = b"\"a,\"\"b\"\"\n\xFF\",no verdict,,,,,,,,,,\"why, then\"\n";
        assert_eq!(line, expected);
    }

    #[test]
    fn signs_of_json_are_escaped() {
        let line = Form::Json.line(OsStr::from_bytes(b"a\\\"\t\xC3\xA9\xFF"), &open("x"));
        let expected = "{\"folder\":\"a\\\\\\\"\\u0009\u{e9}\u{FFFD}\",\"verdict\":\"no verdict\",\"note\":\"x\"}\n";
        assert_eq!(String::from_utf8(line).unwrap(), expected);
    }
}
