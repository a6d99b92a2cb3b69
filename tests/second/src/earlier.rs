//! The earlier writer, as P4 describes it: a number's groups are put together in a spare array and copied into the
//! lent bytes. The proved writer never had such an array, so this one is kept to hold bytes, refusals and speed against.

use crate::codec::{fold, rule_4_bytes_fit};
use crate::verdict::Answer;

/// The most bytes that a number takes.
const WIDEST: usize = 10;

/// Writes the whole list into the lent bytes and gives the count of bytes.
pub fn write(list: &[i64], bytes: &mut [u8]) -> Answer<usize> {
    rule_4_bytes_fit(list, bytes.len())?;
    let mut spare = [0; WIDEST];
    let mut next = 0;
    for &number in list {
        let width = put_groups(fold(number), &mut spare);
        bytes[next..next + width].copy_from_slice(&spare[..width]);
        next += width;
    }
    Ok(next)
}

/// Puts the groups at the front of the array and gives their count.
fn put_groups(folded: u64, spare: &mut [u8; WIDEST]) -> usize {
    let mut rest = folded;
    let mut width = 0;
    while rest > 127 {
        spare[width] = (rest % 128) as u8 + 128;
        rest /= 128;
        width += 1;
    }
    spare[width] = rest as u8;
    width + 1
}
