//! How often each thing occurs.

use std::collections::BTreeMap;

pub type Counts = BTreeMap<String, u64>;

pub fn note(counts: &mut Counts, name: impl Into<String>, occurs: bool) {
    *counts.entry(name.into()).or_default() += u64::from(occurs);
}

/// What occurs less often than that.
pub fn seldom(counts: &Counts, least: u64) -> Vec<(&String, &u64)> {
    counts.iter().filter(|&(_, &count)| count < least).collect()
}
