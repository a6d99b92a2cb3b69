//! The text that `settle` prints below the verdict.

use explain::amount::{Amount, Unit};
use explain::check::wide;
use gasplan::Settlement;
use gasplan_text::words::grouped;

use crate::records::{Changed, Record, Records};
use crate::rows::{Row, Way};

/// Below every answer.
pub const NOT_PROVED: &str =
    "The verdict with its numbers is the proved library's. All else is not proved.";

/// The total, the four counts in words, and the records' own sums beside them.
pub fn settled(records: &Records, agreed: i64, figures: &Settlement) -> String {
    let count = |way: Way, count: i64, words: String| (way.words(), wide(count), words);
    let agreed = grouped(wide(agreed));
    let alone = |other| format!("not in the {other}'s record: it stands");
    let mut lines = vec![
        ("settled total", wide(figures.total), "g".to_string()),
        count(
            Way::Agreed,
            figures.agreed,
            format!("at most {agreed} g apart: the sender's stands"),
        ),
        count(
            Way::Cut,
            figures.cut,
            "further apart: the smaller stands".to_string(),
        ),
        count(Way::OnlySender, figures.only_sender, alone("receiver")),
        count(Way::OnlyReceiver, figures.only_receiver, alone("sender")),
    ];
    lines.extend(records.both().map(of_record));
    let texts: Vec<String> = lines.iter().map(|(_, it, _)| grouped(*it)).collect();
    let width = texts.iter().map(String::len).max().unwrap_or(0);
    let line = |((name, _, words), number): (&(&str, i128, String), &String)| {
        format!("  {name:<15}{number:>width$} {words}\n")
    };
    lines.iter().zip(&texts).map(line).collect()
}

/// What a record adds up to by itself.
fn of_record(record: &Record) -> (&'static str, i128, String) {
    let sum = record.rows().map(|(_, grams)| wide(grams)).sum();
    let rows = Amount {
        count: record.rows().count() as i128,
        unit: Unit::Thing("row"),
    };
    let words = format!("g in {rows} of {}", record.told());
    (record.meter.name(), sum, words)
}

/// A line for each number that is not the file's.
pub fn changes(records: &Records) -> String {
    let of_record = |record: &Record| {
        let name = record.meter.name();
        let line = move |Changed { address, was, is }: &Changed| {
            let [was, is] = [was, is].map(|number| match address.ends_with("time") {
                true => number.to_string(),
                false => grouped(wide(*number)),
            });
            format!("with {name} {address} = {is} in place of {was}\n")
        };
        record.changed.iter().map(line).collect::<String>()
    };
    records.both().map(of_record).concat()
}

const ABOVE_ROWS: &str =
    "Every row in order of time (s), in g; the difference is sender less receiver.";
const BELOW_ROWS: &str = "These rows add up to the verdict.";
const HEAD: [&str; 5] = ["time", "sender", "receiver", "difference", "stands"];

/// A line for each row, in columns, with the sums below. The rows are known to add up.
pub fn rows(rows: &[Row]) -> String {
    let mass = |mass: Option<i64>| mass.map_or("-".to_string(), |it| grouped(wide(it)));
    let mut lines: Vec<[String; 5]> = vec![HEAD.map(str::to_string)];
    lines.extend(rows.iter().map(|row| {
        [
            row.time.to_string(),
            mass(row.sender),
            mass(row.receiver),
            row.difference().map_or("-".to_string(), grouped),
            mass(Some(row.stands)),
        ]
    }));
    let sum = |of: fn(&Row) -> Option<i64>| grouped(rows.iter().filter_map(of).map(wide).sum());
    lines.push([
        "total".to_string(),
        sum(|row| row.sender),
        sum(|row| row.receiver),
        String::new(),
        sum(|row| Some(row.stands)),
    ]);
    let widths: [usize; 5] = std::array::from_fn(|column| {
        let lengths = lines.iter().map(|line| line[column].len());
        lengths.max().unwrap_or(0)
    });
    let ways = rows.iter().map(|row| row.way.words());
    let ways = ["settled as"].into_iter().chain(ways).chain([""]);
    let line = |(cells, way): (&[String; 5], &str)| {
        let cell = |(cell, width): (&String, usize)| format!("  {cell:>width$}");
        let cells: String = cells.iter().zip(widths).map(cell).collect();
        format!("{}\n", format!("{cells}  {way}").trim_end())
    };
    let lines: String = lines.iter().zip(ways).map(line).collect();
    format!("{ABOVE_ROWS}\n{lines}{BELOW_ROWS}\n")
}
