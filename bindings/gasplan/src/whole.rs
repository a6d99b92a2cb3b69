//! Whole lists and byte strings, allocated as long as they can get.

use alloc::vec;
use alloc::vec::Vec;

use crate::{Answer, NUMBER_BYTES, read, write};

/// Reads all numbers of the bytes. A number takes a byte at least, so a place is always free.
#[inline]
pub fn read_all(bytes: &[u8]) -> Answer<Vec<i64>> {
    let mut list = vec![0; bytes.len()];
    let count = read(bytes, &mut list)?;
    list.truncate(count);
    Ok(list)
}

/// The bytes of a list, with room for the longest number at every place.
#[inline]
pub fn write_all(list: &[i64]) -> Answer<Vec<u8>> {
    let mut bytes = vec![0; NUMBER_BYTES * list.len()];
    let count = write(list, &mut bytes)?;
    bytes.truncate(count);
    Ok(bytes)
}
