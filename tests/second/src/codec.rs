//! Groups of seven: numbers as bytes, and back.

use crate::verdict::{Answer, ask};

/// Added to all but the last byte of a number.
const MORE: u8 = 0x80;

/// Where the tenth byte stands, counted from 0.
const TENTH: usize = 9;

/// Reads all the bytes into the lent list and gives the count of numbers.
pub fn read(bytes: &[u8], list: &mut [i64]) -> Answer<usize> {
    let mut count = 0;
    let mut start = 0;
    while start < bytes.len() {
        rule_3_place_is_free(count, list.len(), start)?;
        let (folded, length) = number_at(bytes, start)?;
        list[count] = unfold(folded);
        count += 1;
        start += length;
    }
    Ok(count)
}

/// The folded number that starts there, and how many bytes it takes.
fn number_at(bytes: &[u8], start: usize) -> Answer<(u64, usize)> {
    let mut folded = 0;
    let mut index = 0;
    loop {
        let place = start + index;
        let byte = rule_1_byte_is_there(bytes, place)?;
        rule_2_byte_is_allowed(byte, index, place)?;
        // Rule 2 lets no number go past its tenth byte: the shift stays in 0..=63.
        folded |= u64::from(byte & !MORE) << (7 * index);
        index += 1;
        if byte < MORE {
            return Ok((folded, index));
        }
    }
}

/// Where the bytes ran out, the place is their length.
fn rule_1_byte_is_there(bytes: &[u8], place: usize) -> Answer<u8> {
    let byte = bytes.get(place).copied();
    ask(1, byte.is_some(), 0, bytes.len())?;
    Ok(byte.unwrap_or(0))
}

/// The place is that of the byte itself; `index` counts it within its number.
fn rule_2_byte_is_allowed(byte: u8, index: usize, place: usize) -> Answer<()> {
    let tenth_is_small = index < TENTH || byte <= 1;
    let last_is_needed = index == 0 || byte != 0;
    ask(2, tenth_is_small && last_is_needed, 0, place)
}

/// The place is the first byte of the number for which the list is full.
fn rule_3_place_is_free(count: usize, room: usize, start: usize) -> Answer<()> {
    ask(3, count < room, 0, start)
}

/// Writes the whole list into the lent bytes and gives the count of bytes.
pub fn write(list: &[i64], bytes: &mut [u8]) -> Answer<usize> {
    rule_4_bytes_fit(list, bytes.len())?;
    let mut next = 0;
    for &number in list {
        let mut folded = fold(number);
        while folded >= u64::from(MORE) {
            bytes[next] = (folded as u8) | MORE;
            folded >>= 7;
            next += 1;
        }
        bytes[next] = folded as u8;
        next += 1;
    }
    Ok(next)
}

pub(crate) fn rule_4_bytes_fit(list: &[i64], room: usize) -> Answer<()> {
    ask(4, length(list) <= room, 0, 0)
}

/// How many bytes the list takes.
pub fn length(list: &[i64]) -> usize {
    list.iter().map(|&number| groups(fold(number))).sum()
}

/// How many groups of seven bits the folded number takes; 0 takes one.
fn groups(folded: u64) -> usize {
    let bits = u64::BITS - (folded | 1).leading_zeros();
    bits.div_ceil(7) as usize
}

/// 2n, or -2n - 1 if negative, which is the complement of 2n.
pub(crate) fn fold(number: i64) -> u64 {
    let doubled = (number as u64) << 1;
    if number < 0 { !doubled } else { doubled }
}

fn unfold(folded: u64) -> i64 {
    let half = (folded >> 1) as i64;
    if folded & 1 == 1 { !half } else { half }
}
