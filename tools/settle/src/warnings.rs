//! What no rule refuses and is seldom meant.

use std::fs;

use gasplan::Settlement;
use gasplan_text::files::Meter;

use crate::records::{Record, Records};

/// Of the files that were named, whatever the verdict.
pub fn of_files(records: &Records) -> Vec<String> {
    let swapped = records.both().into_iter().filter_map(swapped);
    swapped.chain(same_file(records)).collect()
}

/// Where a file has the other's name: the order of the two decides whose mass stands.
fn swapped(record: &Record) -> Option<String> {
    let other = match record.meter {
        Meter::Sender => Meter::Receiver,
        Meter::Receiver => Meter::Sender,
    };
    let is_named = record.path.file_stem().is_some_and(|it| it == other.name());
    let (path, name) = (record.path.display(), record.name());
    is_named.then(|| format!("warning: {path} is the {name} here"))
}

/// Where one file is named for both, by whatever path.
fn same_file(records: &Records) -> Option<String> {
    let [sender, receiver] = records.both().map(|it| fs::canonicalize(&it.path).ok());
    let path = records.sender.path.display();
    let words = format!("warning: {path} is both records: one file is settled with itself");
    (sender.is_some() && sender == receiver).then_some(words)
}

/// Of two records that were settled: where none of the rows was held to a row of the other record.
pub fn of_rows(records: &Records, figures: &Settlement) -> Vec<String> {
    let words = match records.both().map(|record| record.rows().next().is_some()) {
        _ if figures.agreed + figures.cut > 0 => return Vec::new(),
        [true, true] => "no time is in both records: the total is the sum of the two".to_string(),
        [true, false] => alone(&records.receiver, Meter::Sender),
        [false, true] => alone(&records.sender, Meter::Receiver),
        [false, false] => return Vec::new(),
    };
    vec![format!("warning: {words}")]
}

fn alone(empty: &Record, other: Meter) -> String {
    let (path, name, other) = (empty.path.display(), empty.name(), other.name());
    format!("the {name} ({path}) has no rows: the total is the {other}'s own")
}
