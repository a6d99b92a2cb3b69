//! The proved writer, the earlier one with its spare array and the second checker's: answers and all that was lent.

use beside::library;
use gasplan::calls;
use harness::calls::{OUT_PLACES, write, write_earlier};
use harness::codec_rounds::{self, write_in_every_room};
use harness::lent::Lent;
use harness::{Beside, Judge};
use inputs::aimed::edges::numbers_of_every_width;
use inputs::bytes::encode;

const ROUNDS: u64 = 300;

/// Rooms of the rounds that are too small, at least.
const TOO_SMALL: u64 = 500_000;

/// A list into bytes, and `out`.
type Writer = fn(&[i64], &mut [u8], &mut [i64]) -> i64;

const WRITERS: [(&str, Writer); 3] = [
    ("proved", calls::write),
    ("earlier", write_earlier),
    ("second checker's", write),
];

/// Lists and their bytes, worked out by hand.
const KNOWN: [(&[i64], &[u8]); 9] = [
    (&[], &[]),
    (&[0, -1, 1], b"\x00\x01\x02"),
    (&[63, -64], b"\x7E\x7F"),
    (&[64, -65], b"\x80\x01\x81\x01"),
    (&[8_191, 8_192], b"\xFE\x7F\x80\x80\x01"),
    (&[60_000, -60_000], b"\xC0\xA9\x07\xBF\xA9\x07"),
    (&[i64::MIN], b"\xFF\xFF\xFF\xFF\xFF\xFF\xFF\xFF\xFF\x01"),
    (&[i64::MAX], b"\xFE\xFF\xFF\xFF\xFF\xFF\xFF\xFF\xFF\x01"),
    (
        &[5, i64::MAX, -300, i64::MIN, 5],
        b"\x0A\xFE\xFF\xFF\xFF\xFF\xFF\xFF\xFF\xFF\x01\xD7\x04\xFF\xFF\xFF\xFF\xFF\xFF\xFF\xFF\xFF\x01\x0A",
    ),
];

#[test]
fn known_lists_are_written_as_worked_out() {
    for (list, known) in KNOWN {
        for room in 0..=known.len() + 2 {
            for (name, write) in WRITERS {
                let (mut bytes, mut out) = (Lent::new(room), Lent::new(OUT_PLACES));
                let answer = write(list, bytes.room(), out.room());
                let what = format!("{name}: {list:?} into {room} bytes");
                assert_eq!((answer, bytes, out), wanted(known, room), "{what}");
            }
        }
    }
}

/// The answer, the lent bytes and `out`: all of a list's bytes, or none.
fn wanted(known: &[u8], room: usize) -> (i64, Lent<u8>, Lent<i64>) {
    let (mut bytes, mut out) = (Lent::new(room), Lent::new(OUT_PLACES));
    if room < known.len() {
        out.room()[..2].fill(0);
        return (4, bytes, out);
    }
    bytes.room()[..known.len()].copy_from_slice(known);
    out.room()[0] = known.len() as i64;
    (0, bytes, out)
}

#[test]
fn the_writers_agree_in_every_room() {
    let mut beside = Beside::new(library::judge());
    for seed in 0..ROUNDS {
        if let Err(difference) = codec_rounds::lists_round(&mut beside, seed) {
            panic!("tests/soak 0 {seed}: {difference}");
        }
    }
    let too_small = beside.tally.count(4);
    assert!(too_small >= TOO_SMALL, "{too_small}");
}

/// Each number alone, between others, after others, and all of them in one list.
#[test]
fn the_writers_agree_at_every_width() {
    let mut beside = Beside::new(library::judge());
    let mut counts = [0; 10];
    let numbers = numbers_of_every_width();
    let mut lists = vec![numbers.clone()];
    for number in numbers {
        counts[encode(&[number]).bytes.len() - 1] += 1;
        lists.extend([vec![number], vec![60_000, number, -1], vec![0, 64, number]]);
    }
    for list in lists {
        let written = write_in_every_room(&mut beside, &list);
        assert!(written.is_ok(), "{written:?}");
    }
    assert_eq!(counts, [5, 4, 4, 4, 4, 4, 4, 4, 4, 4]);
}

/// The writers are really compared: with a wrong one put in, a difference is found.
#[test]
fn a_wrong_writer_is_found() {
    for (name, wrong) in WRONG {
        let mut beside = Beside::new(Judge {
            write: Some(Box::new(wrong)),
            ..Judge::default()
        });
        let found = (1..200).any(|seed| {
            codec_rounds::lists_round(&mut beside, seed).is_err()
                || codec_rounds::round(&mut beside, seed).is_err()
        });
        assert!(found, "{name}");
    }
}

/// The proved writer, spoilt.
const WRONG: [(&str, Writer); 6] = [
    ("changes the byte past the end", past_the_end),
    ("refuses an exact room", refuses_an_exact_room),
    ("writes before it refuses", writes_before_it_refuses),
    ("refuses at the room's end", refuses_at_the_end),
    ("counts numbers", counts_numbers),
    ("has an array of nine bytes", nine_groups),
];

fn past_the_end(list: &[i64], bytes: &mut [u8], out: &mut [i64]) -> i64 {
    let answer = calls::write(list, bytes, out);
    if answer == 0 && out[0] < bytes.len() as i64 {
        bytes[out[0] as usize] ^= 1;
    }
    answer
}

fn refuses_an_exact_room(list: &[i64], bytes: &mut [u8], out: &mut [i64]) -> i64 {
    let less = bytes.len().saturating_sub(1);
    calls::write(list, &mut bytes[..less], out)
}

fn writes_before_it_refuses(list: &[i64], bytes: &mut [u8], out: &mut [i64]) -> i64 {
    let answer = calls::write(list, bytes, out);
    if answer == 4 {
        bytes.copy_from_slice(&encode(list).bytes[..bytes.len()]);
    }
    answer
}

fn refuses_at_the_end(list: &[i64], bytes: &mut [u8], out: &mut [i64]) -> i64 {
    let answer = calls::write(list, bytes, out);
    if answer == 4 {
        out[1] = bytes.len() as i64;
    }
    answer
}

fn counts_numbers(list: &[i64], bytes: &mut [u8], out: &mut [i64]) -> i64 {
    let answer = calls::write(list, bytes, out);
    if answer == 0 {
        out[0] = list.len() as i64;
    }
    answer
}

/// The tenth byte of a number is lost.
fn nine_groups(list: &[i64], bytes: &mut [u8], out: &mut [i64]) -> i64 {
    let answer = calls::write(list, bytes, out);
    for (start, &number) in encode(list).starts.into_iter().zip(list) {
        if answer == 0 && encode(&[number]).bytes.len() == 10 {
            bytes[start + 9] = 0;
        }
    }
    answer
}
