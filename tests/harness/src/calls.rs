//! The calls of a judge, and the second checker in the same form.
//!
//! Every call gives 0 for "yes", or the refusal's number with its step and place in the
//! first two places of `out`. With fewer than six places in `out` it gives -1 and touches
//! nothing. Places of `out` that an answer doesn't use stay as they were.

use second::{
    Answer, Refusal, call, case, codec, earlier, ledger, merged, plan, program, settlement,
};

pub const OUT_PLACES: usize = 6;

/// `out` is too short.
pub const NO_ROOM: i64 = -1;

pub type Read = Box<dyn Fn(&[u8], &mut [i64], &mut [i64]) -> i64>;
pub type Write = Box<dyn Fn(&[i64], &mut [u8], &mut [i64]) -> i64>;
pub type JudgeCase = Box<dyn Fn(&[i64], &mut [i64]) -> i64>;
pub type JudgePlan = Box<dyn Fn(&[i64], &[i64], &mut [i64]) -> i64>;
pub type JudgeBytes = Box<dyn Fn(&[u8], &[u8], &mut [i64], &mut [i64], &mut [i64]) -> i64>;
pub type DrawLedger = Box<dyn Fn(&[i64], &[i64], i64, i64, i64, &mut [i64]) -> i64>;
pub type Settle = Box<dyn Fn(&[i64], &[i64], i64, &mut [i64]) -> i64>;
pub type PrintLine = Box<dyn Fn(Option<&[u8]>, Option<&[u8]>) -> String>;

/// The calls that a judge offers.
#[derive(Default)]
pub struct Judge {
    /// Bytes into a list; the count of numbers goes into `out`.
    pub read: Option<Read>,
    /// A list into bytes; the count of bytes goes into `out`.
    pub write: Option<Write>,
    /// A case.
    pub case: Option<JudgeCase>,
    /// A case and a plan; six totals go into `out`.
    pub plan: Option<JudgePlan>,
    /// Case bytes and plan bytes, a case list and a plan list; six totals go into `out`.
    pub bytes: Option<JudgeBytes>,
    /// A case, a plan, a node set and two steps; six figures go into `out`.
    pub ledger: Option<DrawLedger>,
    /// The sender's record, the receiver's and the agreed figure; five figures go into `out`.
    pub settle: Option<Settle>,
    /// The program's line for the contents of case.bin and plan.bin.
    pub line: Option<PrintLine>,
}

impl Judge {
    /// The second checker itself, with every call.
    pub fn second() -> Self {
        Judge {
            read: Some(Box::new(read)),
            write: Some(Box::new(write)),
            case: Some(Box::new(judge_case)),
            plan: Some(Box::new(judge_plan)),
            bytes: Some(Box::new(judge_bytes)),
            ledger: Some(Box::new(draw_ledger)),
            settle: Some(Box::new(settle)),
            line: Some(Box::new(program::line)),
        }
    }
}

pub fn read(bytes: &[u8], list: &mut [i64], out: &mut [i64]) -> i64 {
    if out.len() < OUT_PLACES {
        return NO_ROOM;
    }
    answer(codec::read(bytes, list).map(count), out)
}

pub fn write(list: &[i64], bytes: &mut [u8], out: &mut [i64]) -> i64 {
    if out.len() < OUT_PLACES {
        return NO_ROOM;
    }
    answer(codec::write(list, bytes).map(count), out)
}

/// The writer with a spare array.
pub fn write_earlier(list: &[i64], bytes: &mut [u8], out: &mut [i64]) -> i64 {
    if out.len() < OUT_PLACES {
        return NO_ROOM;
    }
    answer(earlier::write(list, bytes).map(count), out)
}

pub fn judge_case(case: &[i64], out: &mut [i64]) -> i64 {
    if out.len() < OUT_PLACES {
        return NO_ROOM;
    }
    answer(case::judge(case).map(|_| []), out)
}

pub fn judge_plan(case: &[i64], plan: &[i64], out: &mut [i64]) -> i64 {
    if out.len() < OUT_PLACES {
        return NO_ROOM;
    }
    answer(plan::judge(case, plan).map(|totals| totals.figures()), out)
}

pub fn judge_bytes(
    case_bytes: &[u8],
    plan_bytes: &[u8],
    case_list: &mut [i64],
    plan_list: &mut [i64],
    out: &mut [i64],
) -> i64 {
    if out.len() < OUT_PLACES {
        return NO_ROOM;
    }
    let verdict = call::judge_bytes(case_bytes, plan_bytes, case_list, plan_list);
    answer(verdict.map(|totals| totals.figures()), out)
}

pub fn draw_ledger(case: &[i64], plan: &[i64], set: i64, s: i64, t: i64, out: &mut [i64]) -> i64 {
    if out.len() < OUT_PLACES {
        return NO_ROOM;
    }
    let figures = ledger::ledger(case, plan, set, s, t).map(|ledger| ledger.figures());
    answer(figures, out)
}

pub fn settle(sender: &[i64], receiver: &[i64], agreed: i64, out: &mut [i64]) -> i64 {
    if out.len() < OUT_PLACES {
        return NO_ROOM;
    }
    let settlement = settlement::settle(sender, receiver, agreed);
    answer(settlement.map(|settlement| settlement.figures()), out)
}

/// The settlement by a merge.
pub fn settle_merged(sender: &[i64], receiver: &[i64], agreed: i64, out: &mut [i64]) -> i64 {
    if out.len() < OUT_PLACES {
        return NO_ROOM;
    }
    let settlement = merged::settle(sender, receiver, agreed);
    answer(settlement.map(|settlement| settlement.figures()), out)
}

fn count(count: usize) -> [i128; 1] {
    [count as i128]
}

/// Puts the figures, or the refusal's step and place, at the start of `out`.
fn answer<const COUNT: usize>(verdict: Answer<[i128; COUNT]>, out: &mut [i64]) -> i64 {
    match verdict {
        Ok(figures) => {
            for (place, figure) in out.iter_mut().zip(figures) {
                *place = i64::try_from(figure).expect("the ranges keep every figure in 64 bits");
            }
            0
        }
        Err(Refusal {
            number,
            step,
            place,
        }) => {
            (out[0], out[1]) = (step as i64, place as i64);
            i64::from(number)
        }
    }
}
