//! The number that could not be read is found from the refusal's place.

use gasplan::{Refusal, read};
use gasplan_text::files::unreadable;
use gasplan_text::unread::Unread;

/// Bytes that lie at the edges of the questions.
const EDGES: [u8; 6] = [0x00, 0x01, 0x02, 0x7F, 0x80, 0xFF];

/// What stands before them. After the last, the tenth byte of a number can be an edge.
const BEFORE: [&[u8]; 4] = [
    &[],
    &[0x80; 5],
    &[0x00, 0xFF, 0x01],
    &[0x03, 0x80, 0x80, 0x80, 0x80, 0x80, 0x80, 0x80],
];

/// All strings of so many edges.
fn strings(length: u32) -> impl Iterator<Item = Vec<u8>> {
    let count = EDGES.len();
    (0..count.pow(length)).map(move |at| {
        let edge = |digit| EDGES[at / count.pow(digit) % count];
        (0..length).map(edge).collect()
    })
}

/// What is found at the refusal's place is what reading number by number comes to. Gives the refusal's number.
fn found(bytes: &[u8]) -> Option<i64> {
    let mut list = vec![7; bytes.len()];
    let Refusal { number, place, .. } = read(bytes, &mut list).err()?;
    let unread = Unread::at(bytes, place);
    assert_eq!(
        unread.no().map(|(question, _)| question),
        Some(number),
        "{bytes:02X?}"
    );
    let mut first = 0;
    for _ in 0..unread.index {
        first += 1 + bytes[first..]
            .iter()
            .take_while(|&&byte| byte >= 0x80)
            .count();
    }
    assert_eq!(unread.first, first, "{bytes:02X?}");
    let mut again = vec![7; bytes.len()];
    assert_eq!(
        read(&bytes[..first], &mut again),
        Ok(unread.index),
        "{bytes:02X?}"
    );
    assert_eq!(
        list, again,
        "the numbers before it are those that were stored"
    );
    Some(number)
}

#[test]
fn the_way_back_ends_at_the_number_s_first_byte() {
    let mut seen = [0; 3];
    for before in BEFORE {
        for string in (1..=5).flat_map(strings) {
            let number = found(&[before, &string].concat()).unwrap_or(0);
            seen[number as usize] += 1;
        }
    }
    assert!(seen.iter().all(|&count| count > 1_000), "{seen:?}");
}

fn told(bytes: &[u8]) -> String {
    let refusal = read(bytes, &mut vec![0; bytes.len()]).unwrap_err();
    unreadable(bytes, refusal)
}

#[test]
fn what_is_said() {
    assert_eq!(
        told(&[0x02, 0x80, 0x00, 0x04]),
        "cannot be read, byte 2: number 1, from byte 1 on, is 80 [00]: its last byte is 00, which a number does not need"
    );
    assert_eq!(
        told(&[0xFF; 12]),
        "cannot be read, byte 9: number 0, from byte 0 on, is FF FF FF FF FF FF FF FF FF [FF]: \
         its tenth byte is FF, and only 01 may stand there"
    );
    assert_eq!(
        told(&[0x87, 0x0E, 0x80, 0x80]),
        "cannot be read, end after 4 bytes: number 1, from byte 2 on, is 80 80 [end]: \
         each byte is 80 or more, so another is due"
    );
    let full = read(&[0x02, 0x04], &mut [0]).unwrap_err();
    assert_eq!(
        unreadable(&[0x02, 0x04], full),
        "cannot be read: no room for the number that begins at byte 1"
    );
}

/// A refusal that does not fit the bytes is not explained away.
#[test]
fn another_place_has_no_no() {
    let bytes = [0x02, 0x80, 0x00, 0x04];
    for place in [0, 1, 3, 4, 5] {
        assert_eq!(Unread::at(&bytes, place).no(), None, "{place}");
    }
    assert_eq!(Unread::at(&[0x80], 0).no(), None);
    assert_eq!(Unread::at(&[], 0).no(), None);
}
