//! Random damage to lists and bytes.

use crate::rng::Rng;

/// Changes, drops, adds, swaps or negates one to three numbers.
pub fn damage_list(rng: &mut Rng, list: &mut Vec<i64>) {
    for _ in 0..=rng.below(3) {
        damage_once(rng, list);
    }
}

fn damage_once(rng: &mut Rng, list: &mut Vec<i64>) {
    if list.is_empty() {
        list.push(any_number(rng));
        return;
    }
    let place = rng.below(list.len());
    let other = rng.below(list.len());
    match rng.below(12) {
        0 => {
            list.remove(place);
        }
        1 => list.insert(place, any_number(rng)),
        2 => list.swap(place, other),
        3 => list[place] = list[other],
        4 => list[place] = list[place].wrapping_neg(),
        5 => list[place] = 0,
        6 => list[place] = any_number(rng),
        7 => list[place] ^= 1 << rng.below(13),
        _ => {
            let off = rng.skewed(1..=1_000);
            let off = if rng.flip() { off } else { -off };
            list[place] = list[place].wrapping_add(off);
        }
    }
}

/// A number of any size, often an end of a range.
pub fn any_number(rng: &mut Rng) -> i64 {
    let size = rng.bits() as i64 >> rng.below(64);
    let known = [
        0,
        1,
        -1,
        i64::MIN,
        i64::MAX,
        i64::MIN + 1,
        10_000_000,
        200_000,
    ];
    match rng.below(4) {
        0 => known[rng.below(known.len())],
        1 => size.wrapping_neg(),
        _ => size,
    }
}

/// A list of such numbers.
pub fn any_list(rng: &mut Rng, most: usize) -> Vec<i64> {
    let count = rng.below(most + 1);
    (0..count).map(|_| any_number(rng)).collect()
}

/// Changes, drops, adds, swaps or cuts off bytes, one to three times.
pub fn damage_bytes(rng: &mut Rng, bytes: &mut Vec<u8>) {
    for _ in 0..=rng.below(3) {
        if bytes.is_empty() {
            bytes.push(rng.bits() as u8);
            continue;
        }
        let place = rng.below(bytes.len());
        let other = rng.below(bytes.len());
        match rng.below(7) {
            0 => {
                bytes.remove(place);
            }
            1 => bytes.insert(place, rng.bits() as u8),
            2 => bytes.swap(place, other),
            3 => bytes.truncate(place),
            4 => bytes[place] |= 0x80,
            5 => bytes[place] &= 0x7F,
            _ => bytes[place] ^= 1 << rng.below(8),
        }
    }
}
