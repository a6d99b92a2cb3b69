//! Edges of 1 to 4: the numbers at which a group more is needed, and their bytes cut, overlong and without room.

use super::Expect;
use crate::aimed::refused;
use crate::bytes::encode;

/// Bytes to read into so many places.
pub struct ReadEdge {
    pub bytes: Vec<u8>,
    pub room: usize,
    pub expect: Expect,
}

/// Numbers to write into so many bytes.
pub struct WriteEdge {
    pub list: Vec<i64>,
    pub room: usize,
    pub expect: Expect,
}

/// The last number of each count of groups and the next one, of both signs, and the numbers about 0.
pub fn numbers_of_every_width() -> Vec<i64> {
    let mut numbers = vec![0, -1, 1, i64::MIN, i64::MAX];
    for groups in 1..=9 {
        let next = 1 << (7 * groups - 1);
        numbers.extend([next - 1, next, -next, -next - 1]);
    }
    numbers
}

/// Numbers that stand before or after the one at the edge: none, or some of one byte and of two.
const OTHERS: [&[i64]; 2] = [&[], &[64, 0, -900]];

/// The bytes of a number that cannot be read: the "no" that it ends in, and how far from its first byte.
struct Bad {
    bytes: Vec<u8>,
    no: (u8, usize),
}

fn refused_by(number: u8, place: usize) -> Expect {
    Expect::Refused(refused(number, 0, place))
}

/// A number between others, read into so many places from it on; the offset of a "no" counts from its first byte.
fn between(others: [&[i64]; 2], bytes: &[u8], free: usize, no: Option<(u8, usize)>) -> ReadEdge {
    let [before, after] = others.map(|list| encode(list).bytes);
    let expect = no.map(|(number, offset)| refused_by(number, before.len() + offset));
    ReadEdge {
        bytes: [&before, bytes, &after].concat(),
        room: others[0].len() + free,
        expect: expect.unwrap_or(Expect::Accepted),
    }
}

/// The last number of the bytes: the only one, or after others.
fn last(bytes: &[u8], free: usize, no: Option<(u8, usize)>) -> Vec<ReadEdge> {
    let after = |before| between([before, &[]], bytes, free, no);
    OTHERS.map(after).into()
}

/// The only number, the first, the last, or one between others.
fn anywhere(bytes: &[u8], free: usize, no: Option<(u8, usize)>) -> Vec<ReadEdge> {
    let first = |after| between([&[], after], bytes, free, no);
    let later = |after| between([OTHERS[1], after], bytes, free, no);
    [OTHERS.map(first), OTHERS.map(later)]
        .into_iter()
        .flatten()
        .collect()
}

fn bytes_of_every_width() -> impl Iterator<Item = Vec<u8>> {
    let numbers = numbers_of_every_width().into_iter();
    numbers.map(|number| encode(&[number]).bytes)
}

/// Every number cut after each of its bytes but the last.
fn cuts() -> impl Iterator<Item = Bad> {
    let cut = |bytes: &[u8], kept: usize| Bad {
        bytes: bytes[..kept].to_vec(),
        no: (1, kept),
    };
    bytes_of_every_width()
        .flat_map(move |bytes| (1..bytes.len()).map(move |kept| cut(&bytes, kept)))
}

/// Every number with a last byte 0 more, right after it or after empty groups, up to the tenth byte.
fn overlong() -> impl Iterator<Item = Bad> {
    let longer = |mut bytes: Vec<u8>, offset: usize| {
        let end = bytes.len();
        bytes[end - 1] |= 0x80;
        bytes.resize(offset, 0x80);
        bytes.push(0);
        Bad {
            bytes,
            no: (2, offset),
        }
    };
    bytes_of_every_width()
        .flat_map(move |bytes| (bytes.len()..10).map(move |offset| longer(bytes.clone(), offset)))
}

/// Nine bytes and a tenth one that is not 1.
fn tenths() -> impl Iterator<Item = Bad> {
    let tenth = |last: u8| Bad {
        bytes: [[0x80; 9].as_slice(), &[last]].concat(),
        no: (2, 9),
    };
    [0, 2, 0x7F, 0x80, 0x81, 0xFF].into_iter().map(tenth)
}

/// The bytes run out at their length.
pub fn edge_1_cut() -> Vec<ReadEdge> {
    cuts()
        .flat_map(|bad| last(&bad.bytes, 1, Some(bad.no)))
        .collect()
}

pub fn edge_1_80_at_the_end() -> Vec<ReadEdge> {
    last(&[0x80], 1, Some((1, 1)))
}

/// The 0 itself is wrong, whichever number it ends.
pub fn edge_2_overlong() -> Vec<ReadEdge> {
    overlong()
        .flat_map(|bad| anywhere(&bad.bytes, 1, Some(bad.no)))
        .collect()
}

/// The tenth byte is wrong, in whichever number it stands.
pub fn edge_2_tenth() -> Vec<ReadEdge> {
    tenths()
        .flat_map(|bad| anywhere(&bad.bytes, 1, Some(bad.no)))
        .collect()
}

pub fn edge_3_no_place() -> Vec<ReadEdge> {
    bytes_of_every_width()
        .flat_map(|bytes| anywhere(&bytes, 0, Some((3, 0))))
        .collect()
}

/// 3 is asked before any byte of a number, and its place is the first of them.
pub fn edge_3_bad_number() -> Vec<ReadEdge> {
    let cut_off = cuts().flat_map(|bad| last(&bad.bytes, 0, Some((3, 0))));
    let wrong_byte = overlong().chain(tenths());
    let wrong_byte = wrong_byte.flat_map(|bad| anywhere(&bad.bytes, 0, Some((3, 0))));
    cut_off.chain(wrong_byte).collect()
}

/// The last place is taken by the last number.
pub fn edge_3_one_place() -> Vec<ReadEdge> {
    bytes_of_every_width()
        .flat_map(|bytes| last(&bytes, 1, None))
        .collect()
}

fn writes(less: usize, expect: Expect) -> Vec<WriteEdge> {
    let write = |number: i64| WriteEdge {
        list: vec![number],
        room: encode(&[number]).bytes.len() - less,
        expect,
    };
    numbers_of_every_width().into_iter().map(write).collect()
}

pub fn edge_4_just_room() -> Vec<WriteEdge> {
    writes(0, Expect::Accepted)
}

pub fn edge_4_a_byte_less() -> Vec<WriteEdge> {
    writes(1, refused_by(4, 0))
}
