//! The questions 60 to 62 asked again, in their order: the verdict's place does not say whose row it is.

use explain::Explanation;
use explain::amount::{Amount, MASS, Unit};
use explain::check::{Check, at_least, at_most, check, wide, within};
use gasplan::{GRAMS_MOST, RECORD_MOST, Refusal};
use gasplan_text::words::grouped;

use crate::records::{Record, Records};

/// A part of a question, with the record and the row that it is asked of.
struct Part<'a> {
    refusal: Refusal,
    /// None for the agreed figure.
    record: Option<&'a Record>,
    check: Check,
}

/// The record, the row and the numbers of a refusal.
pub fn explain(records: &Records, agreed: i64, refusal: Refusal) -> Explanation {
    let no = first_no(records, agreed).filter(|part| part.refusal == refusal);
    let item = no.as_ref().map_or("records".to_string(), Part::item);
    Explanation {
        refusal,
        item,
        findings: no.into_iter().map(|part| part.check.text).collect(),
        mark: None,
    }
}

impl Part<'_> {
    fn item(&self) -> String {
        let Some(record) = self.record else {
            return "agreed figure".to_string();
        };
        let words = format!("{} ({})", record.name(), record.told());
        match (self.refusal.number, self.refusal.place) {
            (60, _) => words,
            (_, row) => format!("{words}, row {row}"),
        }
    }
}

/// The first part whose answer is "no".
fn first_no(records: &Records, agreed: i64) -> Option<Part<'_>> {
    let both = records.both().into_iter();
    let records = both.clone().flat_map(rule_60);
    let figure = part(60, 0, None, range("grams", agreed));
    let times = both.clone().flat_map(rule_61);
    let masses = both.flat_map(rule_62);
    let mut parts = records.chain([figure]).chain(times).chain(masses);
    parts.find(|part| !part.check.holds)
}

fn part(number: i64, place: usize, record: Option<&Record>, check: Check) -> Part<'_> {
    Part {
        refusal: Refusal {
            number,
            step: 0,
            place,
        },
        record,
        check,
    }
}

fn range(name: &str, grams: i64) -> Check {
    within(name, grams, 0, GRAMS_MOST, Some(MASS))
}

/// Are the rows whole and at most 5,000?
fn rule_60(record: &Record) -> [Part<'_>; 2] {
    let count = record.list.len();
    let numbers = Amount {
        count: count as i128,
        unit: Unit::Thing("number"),
    };
    let odd = format!("{numbers}, and two make a row: the last row has a time and no mass");
    let rows = count / 2;
    let (side, most) = (
        format!("{} rows", grouped(rows as i128)),
        format!(
            "the {} that are settled at most",
            grouped(RECORD_MOST as i128)
        ),
    );
    let most = at_most(
        (&side, rows as i128),
        (&most, RECORD_MOST as i128),
        Unit::Thing("row"),
    );
    [check(count.is_multiple_of(2), odd), most].map(|check| part(60, 0, Some(record), check))
}

/// Do times rise strictly, from 0 or more?
fn rule_61(record: &Record) -> impl Iterator<Item = Part<'_>> {
    let before = [None].into_iter().chain(record.rows().map(Some));
    let rows = before.zip(record.rows()).enumerate();
    rows.map(|(row, (before, (time, _)))| {
        let is = format!("time = {time}");
        let check = match before {
            None => at_least((&is, wide(time)), ("0", 0), Unit::Of("s")),
            Some((last, _)) => {
                let earlier = row - 1;
                check(
                    time > last,
                    format!("{is}, not above that of row {earlier}, {last}"),
                )
            }
        };
        part(61, row, Some(record), check)
    })
}

/// Is each mass 0 to 10^12?
fn rule_62(record: &Record) -> impl Iterator<Item = Part<'_>> {
    let rows = record.rows().enumerate();
    rows.map(|(row, (time, grams))| {
        let check = range(&format!("time = {time}, grams"), grams);
        part(62, row, Some(record), check)
    })
}
