//! The one call that judges two byte strings.

use crate::verdict::{Answer, Refusal, Totals};
use crate::{case, codec, plan};

/// Reads and judges the case, then reads and judges the plan, into two lent lists.
pub fn judge_bytes(
    case_bytes: &[u8],
    plan_bytes: &[u8],
    case_list: &mut [i64],
    plan_list: &mut [i64],
) -> Answer<Totals> {
    let count = codec::read(case_bytes, case_list)?;
    let case = case::judge(&case_list[..count])?;
    let count = codec::read(plan_bytes, plan_list).map_err(rule_5_6_7_plan_bytes)?;
    let (_, totals) = plan::judge_plan(&case, &plan_list[..count])?;
    Ok(totals)
}

/// On plan bytes 1 to 3 become 5 to 7. The place stays: it counts the bytes of the plan.
fn rule_5_6_7_plan_bytes(refusal: Refusal) -> Refusal {
    Refusal {
        number: match refusal.number {
            1 => 5,
            2 => 6,
            _ => 7,
        },
        ..refusal
    }
}
