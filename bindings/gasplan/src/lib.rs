//! The proved gas plan library, for programs in Rust.
//!
//! Each function lends slices to one function of the library and gives its answer: what was asked for, or the [`Refusal`].
//! `include/gasplan.h` has the contracts. [`calls`] has the same functions in the header's own form.
//!
//! ```
//! let mut bytes = [0; 2 * gasplan::NUMBER_BYTES];
//! let count = gasplan::write(&[-900, 64], &mut bytes)?;
//! assert_eq!(bytes[..count], [0x87, 0x0E, 0x80, 0x01]);
//! # Ok::<(), gasplan::Refusal>(())
//! ```
//!
//! The crate needs no operating system. Its feature `alloc`, which is on by default, adds [`read_all`], [`write_all`]
//! and [`program`].
#![no_std]
#![deny(unsafe_code)]

#[cfg(feature = "alloc")]
extern crate alloc;

#[allow(unsafe_code)]
pub mod calls;
#[cfg(feature = "alloc")]
pub mod program;
#[cfg(feature = "alloc")]
mod whole;

#[cfg(feature = "alloc")]
pub use whole::{read_all, write_all};

use core::error::Error;
use core::fmt;

/// The version of the library, as the header has it.
pub const VERSION: &str = env!("CARGO_PKG_VERSION");

/// The least length of `out` that the library takes.
pub const OUT_PLACES: usize = 6;

/// The answer of a function of [`calls`] whose `out` is shorter.
pub const NO_ROOM: i64 = -1;

/// The longest that one number can be in bytes.
pub const NUMBER_BYTES: usize = 10;

/// The most rows of a meter's record, each of two numbers.
pub const RECORD_MOST: usize = 5_000;

/// The most grams of a row, and of the agreed figure of a settlement.
pub const GRAMS_MOST: i64 = 1_000_000_000_000;

/// The first "no": the question's number, the step and the place.
#[derive(Clone, Copy, Debug, PartialEq, Eq)]
pub struct Refusal {
    pub number: i64,
    pub step: usize,
    pub place: usize,
}

pub type Answer<T> = Result<T, Refusal>;

/// What an accepted plan carries.
#[derive(Clone, Copy, Debug, PartialEq, Eq)]
pub struct Totals {
    pub pressure_slack: i64,
    pub demand_slack: i64,
    pub switching_cost: i64,
    pub residual: i64,
    pub gas_at_start: i64,
    pub gas_at_end: i64,
}

/// The figures of a node set between two steps.
#[derive(Clone, Copy, Debug, PartialEq, Eq)]
pub struct Ledger {
    pub nodes: i64,
    pub inner_pipes: i64,
    pub gas_at_s: i64,
    pub gas_at_t: i64,
    pub brought_in: i64,
    pub residual: i64,
}

/// What two meters settle to: the total in grams, and how many rows were settled in each way, a matched pair as one.
#[derive(Clone, Copy, Debug, PartialEq, Eq)]
pub struct Settlement {
    pub total: i64,
    pub agreed: i64,
    pub cut: i64,
    pub only_sender: i64,
    pub only_receiver: i64,
}

/// Reads bytes into a lent list and gives the count of numbers. The place of a refusal is the count of bytes where they end in
/// a number (1), the index of the byte that is wrong (2), or of the first byte of the number for which the list is full (3).
#[inline]
pub fn read(bytes: &[u8], list: &mut [i64]) -> Answer<usize> {
    let mut out = [0; OUT_PLACES];
    let answer = calls::read(bytes, list, &mut out);
    yes(answer, out).map(|out| out[0] as usize)
}

/// Writes a list into lent bytes and gives the count of bytes.
#[inline]
pub fn write(list: &[i64], bytes: &mut [u8]) -> Answer<usize> {
    let mut out = [0; OUT_PLACES];
    let answer = calls::write(list, bytes, &mut out);
    yes(answer, out).map(|out| out[0] as usize)
}

/// Judges a case.
#[inline]
pub fn case(case_list: &[i64]) -> Answer<()> {
    let mut out = [0; OUT_PLACES];
    let answer = calls::case(case_list, &mut out);
    yes(answer, out).map(|_| ())
}

/// Judges a case and a plan.
#[inline]
pub fn judge(case_list: &[i64], plan_list: &[i64]) -> Answer<Totals> {
    let mut out = [0; OUT_PLACES];
    let answer = calls::judge(case_list, plan_list, &mut out);
    yes(answer, out).map(Totals::of)
}

/// Reads and judges a case, then reads and judges a plan, into two lent lists. Bytes of the plan that cannot be read are refused
/// by 5, 6 and 7, with the places in the plan's bytes that [`read`] has for 1, 2 and 3.
#[inline]
pub fn judge_bytes(
    case_bytes: &[u8],
    plan_bytes: &[u8],
    case_list: &mut [i64],
    plan_list: &mut [i64],
) -> Answer<Totals> {
    let mut out = [0; OUT_PLACES];
    let answer = calls::judge_bytes(case_bytes, plan_bytes, case_list, plan_list, &mut out);
    yes(answer, out).map(Totals::of)
}

/// Judges a case and a plan, then draws up the ledger of a node set from step s to step t.
#[inline]
pub fn ledger(case_list: &[i64], plan_list: &[i64], set: i64, s: i64, t: i64) -> Answer<Ledger> {
    let mut out = [0; OUT_PLACES];
    let answer = calls::ledger(case_list, plan_list, set, s, t, &mut out);
    yes(answer, out).map(Ledger::of)
}

/// Settles the records of two meters, a time in seconds and a mass in grams to a row. The place of a refusal by 61 or 62 is the
/// row, in the sender's record if that is refused by the same number beside an empty one, or else in the receiver's.
#[inline]
pub fn settle(sender: &[i64], receiver: &[i64], agreed: i64) -> Answer<Settlement> {
    let mut out = [0; OUT_PLACES];
    let answer = calls::settle(sender, receiver, agreed, &mut out);
    yes(answer, out).map(Settlement::of)
}

/// Counts, steps and places are promised not to be negative.
fn yes(answer: i64, out: [i64; OUT_PLACES]) -> Answer<[i64; OUT_PLACES]> {
    match answer {
        0 => Ok(out),
        number => Err(Refusal {
            number,
            step: out[0] as usize,
            place: out[1] as usize,
        }),
    }
}

impl Totals {
    fn of(out: [i64; OUT_PLACES]) -> Self {
        let [
            pressure_slack,
            demand_slack,
            switching_cost,
            residual,
            gas_at_start,
            gas_at_end,
        ] = out;
        Totals {
            pressure_slack,
            demand_slack,
            switching_cost,
            residual,
            gas_at_start,
            gas_at_end,
        }
    }
}

impl Ledger {
    fn of(out: [i64; OUT_PLACES]) -> Self {
        let [nodes, inner_pipes, gas_at_s, gas_at_t, brought_in, residual] = out;
        Ledger {
            nodes,
            inner_pipes,
            gas_at_s,
            gas_at_t,
            brought_in,
            residual,
        }
    }
}

impl Settlement {
    fn of(out: [i64; OUT_PLACES]) -> Self {
        let [total, agreed, cut, only_sender, only_receiver, _] = out;
        Settlement {
            total,
            agreed,
            cut,
            only_sender,
            only_receiver,
        }
    }
}

impl Error for Refusal {}

impl fmt::Display for Refusal {
    fn fmt(&self, f: &mut fmt::Formatter<'_>) -> fmt::Result {
        write!(f, "refused {} {} {}", self.number, self.step, self.place)
    }
}

impl fmt::Display for Totals {
    fn fmt(&self, f: &mut fmt::Formatter<'_>) -> fmt::Result {
        write!(
            f,
            "accepted {} {} {} {} {} {}",
            self.pressure_slack,
            self.demand_slack,
            self.switching_cost,
            self.residual,
            self.gas_at_start,
            self.gas_at_end
        )
    }
}

impl fmt::Display for Ledger {
    fn fmt(&self, f: &mut fmt::Formatter<'_>) -> fmt::Result {
        write!(
            f,
            "ledger {} {} {} {} {} {}",
            self.nodes,
            self.inner_pipes,
            self.gas_at_s,
            self.gas_at_t,
            self.brought_in,
            self.residual
        )
    }
}

impl fmt::Display for Settlement {
    fn fmt(&self, f: &mut fmt::Formatter<'_>) -> fmt::Result {
        write!(
            f,
            "settled {} {} {} {} {}",
            self.total, self.agreed, self.cut, self.only_sender, self.only_receiver
        )
    }
}
