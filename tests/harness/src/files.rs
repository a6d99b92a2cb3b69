//! The program's line: files within their limits, at them, past them, or missing.

use inputs::Rng;
use inputs::damage::damage_bytes;

use crate::beside::{Beside, Difference};

/// The most bytes that case.bin and plan.bin may have.
const LIMITS: [usize; 2] = [4_096, 8_192];

/// A few pairs of files made from a case's bytes and a plan's bytes.
pub fn round(beside: &mut Beside, rng: &mut Rng, strings: [&[u8]; 2]) -> Result<(), Difference> {
    let [case, plan] = strings;
    beside.line([Some(case), Some(plan)])?;
    let hit = rng.below(2);
    let changed = change(rng, strings[hit], LIMITS[hit]);
    let mut files = [Some(case), Some(plan)];
    files[hit] = changed.as_deref();
    beside.line(files)?;
    Ok(())
}

/// The file left out, filled up to its limit or one byte past it, or damaged.
fn change(rng: &mut Rng, bytes: &[u8], limit: usize) -> Option<Vec<u8>> {
    let mut bytes = bytes.to_vec();
    match rng.below(4) {
        0 => return None,
        1 => bytes.resize(limit, 0),
        2 => bytes.resize(limit + 1, 0),
        _ => damage_bytes(rng, &mut bytes),
    }
    Some(bytes)
}
