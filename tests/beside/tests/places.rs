//! The place of a "no" in reading, by answers alone: what a reader says of a string is held against what it says of the string's beginnings.
//! Of how bytes make up a number nothing is known here but that a byte 01 can end one.

use beside::library;
use harness::Judge;
use harness::calls::{OUT_PLACES, read};
use inputs::Rng;
use inputs::bytes::{any_bytes, encode};
use inputs::table_t::C;

const SEEDS: u64 = 20_000;

/// So many strings at least are to be read, and to end in each of 1, 2 and 3.
const LEAST: u64 = 1_000;

/// What the bytes are handed over as: alone, or as one string of the call on two.
#[derive(Clone, Copy, Debug)]
enum As {
    List,
    Case,
    Plan,
}

/// The question and the place that reading ends in.
type End = (i64, usize);

/// All bytes were read, whatever is then said of the numbers.
const READ: End = (0, 0);

/// How reading into so many places ends.
fn end(judge: &Judge, handed: As, bytes: &[u8], room: usize) -> End {
    let (mut list, mut out) = (vec![0; room], [0; OUT_PLACES]);
    let read = judge.read.as_ref().expect("the reader");
    let both = judge.bytes.as_ref().expect("the call on two strings");
    let number = match handed {
        As::List => read(bytes, &mut list, &mut out),
        As::Case => both(bytes, &[], &mut list, &mut [], &mut out),
        As::Plan => {
            both(
                &encode(&C).bytes,
                bytes,
                &mut C.clone(),
                &mut list,
                &mut out,
            ) - 4
        }
    };
    match number {
        1..=3 => (number, out[1] as usize),
        _ => READ,
    }
}

/// Does the string end at the place that it is said to end at? Gives the question.
fn ends_there(
    judge: &Judge,
    handed: As,
    rng: &mut Rng,
    room: usize,
    bytes: &[u8],
) -> Result<usize, String> {
    let end_of = |parts: &[&[u8]]| end(judge, handed, &parts.concat(), room);
    let said = end_of(&[bytes]);
    let (number, place) = said;
    let other = any_bytes(rng);
    let is_there = match (number, bytes.get(..place), bytes.get(place)) {
        (0, ..) => true,
        // The place is the length, and the number could have ended there.
        (1, Some(_), None) => end_of(&[bytes, &[1]]) == READ,
        // All before the byte could go on, with it nothing can.
        (2, Some(before), Some(&byte)) => {
            end_of(&[before]) == (1, place)
                && end_of(&[before, &[1]]) == READ
                && end_of(&[before, &[byte]]) == said
                && end_of(&[before, &[byte], &other]) == said
        }
        // All before is read, and no byte can follow.
        (3, Some(before), Some(_)) => {
            end_of(&[before]) == READ && end_of(&[before, &other, &[0x80]]) == said
        }
        _ => false,
    };
    let wrong = || format!("{handed:?}, {bytes:02X?} into {room} places: {said:?}");
    is_there.then_some(number as usize).ok_or_else(wrong)
}

/// Strings of any sort, with a place for every number and in any room: how many ended in each question.
fn rounds(judge: &Judge, handed: As, seeds: u64) -> Result<[u64; 4], String> {
    let mut counts = [0; 4];
    for seed in 0..seeds {
        let mut rng = Rng::new(seed);
        let bytes = any_bytes(&mut rng);
        for room in [bytes.len() + 1, rng.below(bytes.len() + 1)] {
            counts[ends_there(judge, handed, &mut rng, room, &bytes)?] += 1;
        }
    }
    Ok(counts)
}

fn holds(judge: &Judge) {
    for handed in [As::List, As::Case, As::Plan] {
        let counts = rounds(judge, handed, SEEDS).unwrap_or_else(|wrong| panic!("{wrong}"));
        assert!(
            counts.iter().all(|&count| count >= LEAST),
            "{handed:?}: {counts:?}"
        );
    }
}

#[test]
fn the_library_ends_at_the_byte_that_is_wrong() {
    holds(&library::judge());
}

#[test]
fn the_second_checker_ends_at_the_byte_that_is_wrong() {
    holds(&Judge::second());
}

/// With the second checker's answers spoilt, does some string not end where it is said to?
fn is_found(spoil: impl Fn(i64, &[u8], &mut [i64]) -> i64 + 'static) -> bool {
    let spoilt = Judge {
        read: Some(Box::new(move |bytes, list, out| {
            let answer = read(bytes, list, out);
            spoil(answer, bytes, out)
        })),
        ..Judge::second()
    };
    rounds(&spoilt, As::List, 200).is_err()
}

/// Places are really told apart.
#[test]
fn a_wrong_place_is_found() {
    for question in 1..=3 {
        for (name, wrong) in WRONG {
            let found = is_found(move |answer, bytes, out| {
                if answer == question {
                    out[1] = wrong(bytes, out[1]);
                }
                answer
            });
            assert!(found, "{question}, {name}");
        }
    }
}

/// Questions are too: an end is not taken for one where bytes were read, a byte is wrong or the list is full.
#[test]
fn an_end_that_is_none_is_found() {
    for question in [0, 2, 3] {
        let found = is_found(move |answer, bytes, out| {
            if answer != question {
                return answer;
            }
            out[1] = bytes.len() as i64;
            1
        });
        assert!(found, "{question}");
    }
}

/// Another place than the right one of a string.
type Wrong = fn(&[u8], i64) -> i64;

const WRONG: [(&str, Wrong); 3] = [
    ("one byte early", |_, place| place - 1),
    ("one byte late", |_, place| place + 1),
    ("a number's first byte before it", first_byte_before),
];

/// Where the last number begins that begins before this place; the place itself where none does.
fn first_byte_before(bytes: &[u8], place: i64) -> i64 {
    let is_read = |end: &i64| {
        let mut list = vec![0; bytes.len()];
        read(&bytes[..*end as usize], &mut list, &mut [0; OUT_PLACES]) == 0
    };
    (0..place).rev().find(is_read).unwrap_or(place)
}
