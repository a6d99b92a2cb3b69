//! How many inputs ended in each question.

use std::collections::BTreeMap;
use std::fmt;

use inputs::aimed::{AIMS, LEDGER_AIMS, SETTLE_AIMS};
use inputs::bytes::BYTES_AIMS;

/// Every question an input can end in.
const QUESTIONS: [u8; 34] = [
    1, 2, 3, 4, 5, 6, 7, 10, 11, 12, 13, 14, 15, 16, 17, 20, 21, 22, 23, 24, 25, 26, 27, 28, 29,
    30, 31, 32, 33, 40, 41, 60, 61, 62,
];

/// What an aimed change of bytes is made on, beside bytes that are read alone: the two strings of one call.
pub const STRINGS: [&str; 2] = [" in case bytes", " in plan bytes"];

/// Fewer inputs than this leave a question unreached.
pub const LEAST: u64 = 20;

#[derive(Clone, Debug, Default)]
pub struct Tally {
    /// Inputs that ended in a refusal, by its number.
    refused: BTreeMap<i64, u64>,
    pub accepted: u64,
    /// Accepted with pressure slack, demand slack, switching cost and residual above 0.
    pub all_above_0: u64,
    pub ledgers: u64,
    pub settled: u64,
    /// Settled with rows in each of the four ways.
    pub in_every_way: u64,
    /// Strings read and lists written without a "no".
    pub coded: u64,
    /// Strings and lists made for reading and writing, whatever the room.
    pub strings_and_lists: u64,
    /// Inputs of each aimed change, by its name and the string that it is made on, if any.
    pub aimed: BTreeMap<(&'static str, &'static str), u64>,
}

impl Tally {
    pub fn refuse(&mut self, number: i64) {
        *self.refused.entry(number).or_default() += 1;
    }

    pub fn accept(&mut self, totals: &[i64]) {
        self.accepted += 1;
        if totals[..4].iter().all(|&total| total > 0) {
            self.all_above_0 += 1;
        }
    }

    pub fn settle(&mut self, figures: &[i64]) {
        self.settled += 1;
        if figures[1..5].iter().all(|&count| count > 0) {
            self.in_every_way += 1;
        }
    }

    pub fn aim(&mut self, name: &'static str) {
        self.aim_in(name, "");
    }

    pub fn aim_in(&mut self, name: &'static str, string: &'static str) {
        *self.aimed.entry((name, string)).or_default() += 1;
    }

    pub fn count(&self, question: u8) -> u64 {
        self.refused.get(&i64::from(question)).copied().unwrap_or(0)
    }

    /// All inputs counted here.
    pub fn inputs(&self) -> u64 {
        let answered = self.accepted + self.ledgers + self.settled + self.coded;
        self.refused.values().sum::<u64>() + answered
    }

    pub fn add(&mut self, other: &Tally) {
        for (&number, &count) in &other.refused {
            *self.refused.entry(number).or_default() += count;
        }
        for (&aim, &count) in &other.aimed {
            *self.aimed.entry(aim).or_default() += count;
        }
        self.accepted += other.accepted;
        self.all_above_0 += other.all_above_0;
        self.ledgers += other.ledgers;
        self.settled += other.settled;
        self.in_every_way += other.in_every_way;
        self.coded += other.coded;
        self.strings_and_lists += other.strings_and_lists;
    }

    /// What was reached too seldom.
    pub fn gaps(&self) -> Vec<String> {
        let mut gaps: Vec<String> = QUESTIONS
            .iter()
            .filter(|&&question| self.count(question) < LEAST)
            .map(|question| format!("question {question}"))
            .collect();
        if self.accepted < LEAST {
            gaps.push("accepted".to_string());
        }
        if self.all_above_0 < LEAST {
            gaps.push("accepted with all four totals above 0".to_string());
        }
        if self.settled < LEAST {
            gaps.push("settled".to_string());
        }
        if self.in_every_way < LEAST {
            gaps.push("settled in every way".to_string());
        }
        let seldom = aims().filter(|&aim| self.aim_count(aim) < LEAST);
        gaps.extend(seldom.map(|(name, string)| format!("aim {name}{string}")));
        gaps
    }

    fn aim_count(&self, aim: (&'static str, &'static str)) -> u64 {
        self.aimed.get(&aim).copied().unwrap_or(0)
    }
}

/// All aimed changes; those of bytes are due alone and in each string.
fn aims() -> impl Iterator<Item = (&'static str, &'static str)> {
    let strings = ["", STRINGS[0], STRINGS[1]];
    let bytes = BYTES_AIMS.iter();
    let bytes = bytes.flat_map(move |(name, _)| strings.map(|string| (*name, string)));
    let lists = AIMS.iter().map(|(name, _)| (*name, ""));
    let ledgers = LEDGER_AIMS.iter().map(|(name, _)| (*name, ""));
    let records = SETTLE_AIMS.iter().map(|(name, _)| (*name, ""));
    bytes.chain(lists).chain(ledgers).chain(records)
}

impl fmt::Display for Tally {
    fn fmt(&self, f: &mut fmt::Formatter<'_>) -> fmt::Result {
        writeln!(f, "question    inputs")?;
        for question in QUESTIONS {
            writeln!(f, "{question:>8} {:>9}", self.count(question))?;
        }
        writeln!(f, "accepted {:>9}", self.accepted)?;
        writeln!(
            f,
            "  of these with all four totals above 0: {}",
            self.all_above_0
        )?;
        writeln!(f, "ledgers {:>10}", self.ledgers)?;
        writeln!(f, "settled {:>10}", self.settled)?;
        writeln!(f, "  of these in every way: {}", self.in_every_way)?;
        writeln!(f, "read or written {}", self.coded)?;
        writeln!(f, "aimed at a part of a question:")?;
        for (name, string) in aims() {
            let count = self.aim_count((name, string));
            writeln!(f, "{count:>18} {name}{string}")?;
        }
        Ok(())
    }
}
