//! Byte strings: encoded lists, and aimed changes of them.

use crate::damage::{any_list, damage_bytes};
use crate::model::Refused;
use crate::rng::Rng;

/// A list as bytes, and where each number's first byte stands.
pub struct Encoded {
    pub bytes: Vec<u8>,
    pub starts: Vec<usize>,
}

pub fn encode(list: &[i64]) -> Encoded {
    let mut encoded = Encoded {
        bytes: Vec::new(),
        starts: Vec::new(),
    };
    for &number in list {
        encoded.starts.push(encoded.bytes.len());
        let number = i128::from(number);
        let mut rest = if number < 0 {
            -2 * number - 1
        } else {
            2 * number
        };
        while rest > 127 {
            encoded.bytes.push((rest % 128 + 128) as u8);
            rest /= 128;
        }
        encoded.bytes.push(rest as u8);
    }
    encoded
}

/// Bytes to read into a list with so many places, and the first "no" they are to end in.
pub struct AimedBytes {
    pub bytes: Vec<u8>,
    pub room: usize,
    pub expect: Refused,
}

pub type BytesAim = fn(&mut Rng, &[i64]) -> Option<AimedBytes>;

pub const BYTES_AIMS: &[(&str, BytesAim)] = &[
    ("1 cut inside a number", aim_1_cut),
    ("1 byte 80 at the very end", aim_1_end),
    ("2 last byte 0", aim_2_overlong),
    ("2 tenth byte 0", aim_2_tenth_0),
    ("2 tenth byte above 1", aim_2_tenth),
    ("3 no free place", aim_3_room),
    ("3 no free place for a bad number", aim_3_bad_number),
];

/// Makes the number at this place in the list a bad one, and gives the place at which reading is to end.
type MakeBad = fn(&mut Rng, &mut Encoded, usize) -> Option<usize>;

fn refused(number: u8, place: usize) -> Refused {
    Refused {
        number,
        step: 0,
        place,
    }
}

/// The same "no" on plan bytes, where 1 to 3 become 5 to 7.
pub fn on_plan_bytes(refused: Refused) -> Refused {
    Refused {
        number: refused.number + 4,
        ..refused
    }
}

/// Where the bytes of the number at this place in the list end.
fn end_of(encoded: &Encoded, place: usize) -> usize {
    let next = encoded.starts.get(place + 1);
    next.copied().unwrap_or(encoded.bytes.len())
}

/// The first of so many, the last or any.
fn any_of(rng: &mut Rng, count: usize) -> Option<usize> {
    let last = count.checked_sub(1)?;
    Some(match rng.below(3) {
        0 => 0,
        1 => last,
        _ => rng.below(count),
    })
}

/// A list with a bad number at this place, and room for every number.
fn with_bad_number(
    rng: &mut Rng,
    list: &[i64],
    place: usize,
    number: u8,
    make_bad: MakeBad,
) -> Option<AimedBytes> {
    let mut encoded = encode(list);
    let end = make_bad(rng, &mut encoded, place)?;
    Some(AimedBytes {
        bytes: encoded.bytes,
        room: list.len(),
        expect: refused(number, end),
    })
}

/// Cuts the bytes off inside the number, if it has more than one: they run out at their length.
fn cut(rng: &mut Rng, encoded: &mut Encoded, place: usize) -> Option<usize> {
    let start = encoded.starts[place];
    let length = end_of(encoded, place) - start;
    let kept = (length > 1).then(|| 1 + rng.below(length - 1))?;
    encoded.bytes.truncate(start + kept);
    Some(start + kept)
}

/// Puts a 0 after the number's last byte, sometimes with empty groups before it: the 0 itself is wrong.
fn overlong(rng: &mut Rng, encoded: &mut Encoded, place: usize) -> Option<usize> {
    let end = end_of(encoded, place);
    let room = encoded.starts[place] + 10 - end;
    let more = (room > 0).then(|| 1 + rng.below(room))?;
    encoded.bytes[end - 1] |= 0x80;
    let mut tail = vec![0x80; more - 1];
    tail.push(0);
    encoded.bytes.splice(end..end, tail);
    Some(end + more - 1)
}

fn tenth_0(rng: &mut Rng, encoded: &mut Encoded, place: usize) -> Option<usize> {
    Some(with_tenth(rng, encoded, place, 0))
}

fn tenth_above_1(rng: &mut Rng, encoded: &mut Encoded, place: usize) -> Option<usize> {
    let tenth = rng.pick(&[2, 3, 0x7F, 0x80, 0x81, 0xFF])?;
    Some(with_tenth(rng, encoded, place, tenth))
}

/// Puts nine bytes and this tenth one in the number's place: the tenth is wrong.
fn with_tenth(rng: &mut Rng, encoded: &mut Encoded, place: usize, tenth: u8) -> usize {
    let start = encoded.starts[place];
    let end = end_of(encoded, place);
    let mut number: Vec<u8> = (0..9).map(|_| 0x80 | rng.bits() as u8).collect();
    number.push(tenth);
    encoded.bytes.splice(start..end, number);
    start + 9
}

fn aim_1_cut(rng: &mut Rng, list: &[i64]) -> Option<AimedBytes> {
    let encoded = encode(list);
    let is_long = |&place: &usize| end_of(&encoded, place) > encoded.starts[place] + 1;
    let long: Vec<usize> = (0..list.len()).filter(is_long).collect();
    let place = long[any_of(rng, long.len())?];
    with_bad_number(rng, list, place, 1, cut)
}

/// A byte 80 after the last number, or alone.
fn aim_1_end(_: &mut Rng, list: &[i64]) -> Option<AimedBytes> {
    let mut bytes = encode(list).bytes;
    bytes.push(0x80);
    Some(AimedBytes {
        room: list.len() + 1,
        expect: refused(1, bytes.len()),
        bytes,
    })
}

fn aim_2_overlong(rng: &mut Rng, list: &[i64]) -> Option<AimedBytes> {
    let place = any_of(rng, list.len())?;
    with_bad_number(rng, list, place, 2, overlong)
}

fn aim_2_tenth_0(rng: &mut Rng, list: &[i64]) -> Option<AimedBytes> {
    let place = any_of(rng, list.len())?;
    with_bad_number(rng, list, place, 2, tenth_0)
}

fn aim_2_tenth(rng: &mut Rng, list: &[i64]) -> Option<AimedBytes> {
    let place = any_of(rng, list.len())?;
    with_bad_number(rng, list, place, 2, tenth_above_1)
}

fn aim_3_room(rng: &mut Rng, list: &[i64]) -> Option<AimedBytes> {
    let encoded = encode(list);
    let room = any_of(rng, list.len())?;
    Some(AimedBytes {
        room,
        expect: refused(3, encoded.starts[room]),
        bytes: encoded.bytes,
    })
}

/// The list is full before a bad number: 3 is asked before any byte of it.
fn aim_3_bad_number(rng: &mut Rng, list: &[i64]) -> Option<AimedBytes> {
    let mut encoded = encode(list);
    let room = any_of(rng, list.len())?;
    let ways: [MakeBad; 4] = [cut, overlong, tenth_0, tenth_above_1];
    rng.pick(&ways)?(rng, &mut encoded, room)?;
    Some(AimedBytes {
        room,
        expect: refused(3, encoded.starts[room]),
        bytes: encoded.bytes,
    })
}

/// Bytes of any sort: random, encoded, cut, overlong or damaged.
pub fn any_bytes(rng: &mut Rng) -> Vec<u8> {
    let list = any_list(rng, 6);
    match rng.below(5) {
        0 => (0..rng.below(24)).map(|_| rng.bits() as u8).collect(),
        1 => (0..rng.below(24))
            .map(|_| 0x80 | rng.bits() as u8)
            .collect(),
        2 => {
            let (_, aim) = BYTES_AIMS[rng.below(BYTES_AIMS.len())];
            aim(rng, &list).map_or_else(Vec::new, |aimed| aimed.bytes)
        }
        3 => {
            let mut bytes = encode(&list).bytes;
            damage_bytes(rng, &mut bytes);
            bytes
        }
        _ => encode(&list).bytes,
    }
}
