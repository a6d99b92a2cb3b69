//! The program's verdict on two files: its limits, and then one call of the library.

use alloc::vec;
use core::fmt;

use crate::{Answer, Totals, judge_bytes};

pub const CASE_BYTES: usize = 4_096;
pub const CASE_NUMBERS: usize = 1_500;
pub const PLAN_BYTES: usize = 8_192;
pub const PLAN_NUMBERS: usize = 4_000;

#[derive(Clone, Copy, Debug, PartialEq, Eq)]
pub enum Verdict {
    Judged(Answer<Totals>),
    /// One of the files is over its limit.
    TooLong,
}

/// What the program says of these contents of case.bin and plan.bin.
#[inline]
pub fn verdict(case_bytes: &[u8], plan_bytes: &[u8]) -> Verdict {
    if case_bytes.len() > CASE_BYTES || plan_bytes.len() > PLAN_BYTES {
        return Verdict::TooLong;
    }
    let mut case_list = vec![0; CASE_NUMBERS];
    let mut plan_list = vec![0; PLAN_NUMBERS];
    Verdict::Judged(judge_bytes(
        case_bytes,
        plan_bytes,
        &mut case_list,
        &mut plan_list,
    ))
}

impl fmt::Display for Verdict {
    fn fmt(&self, f: &mut fmt::Formatter<'_>) -> fmt::Result {
        match self {
            Verdict::Judged(Ok(totals)) => totals.fmt(f),
            Verdict::Judged(Err(refusal)) => refusal.fmt(f),
            Verdict::TooLong => f.write_str("too long"),
        }
    }
}
