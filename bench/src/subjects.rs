//! What is read and written.

use inputs::Rng;
use inputs::bytes::encode;
use inputs::generate::{Size, of_size};

pub struct Subject {
    pub name: &'static str,
    pub list: Vec<i64>,
    pub bytes: Vec<u8>,
}

/// Lists of numbers of four bytes and more.
const LONGER: [&str; 6] = [
    "four bytes each",
    "five bytes each",
    "six bytes each",
    "seven bytes each",
    "eight bytes each",
    "nine bytes each",
];

/// Numbers in each list that is not a case or a plan.
const COUNT: usize = 40_000;

pub fn subjects() -> Vec<Subject> {
    let mut rng = Rng::new(1);
    let pair = of_size(&mut rng, Size::LARGEST);
    let any_size = |_| rng.bits() as i64 >> rng.below(64);
    let mixed = (0..COUNT).map(any_size).collect();
    let from = |first: i64, count: i64| (0..COUNT as i64).map(|i| first + i % count).collect();
    let ends = [i64::MIN, i64::MAX].repeat(COUNT / 2);
    let mut all = vec![
        subject("largest case", pair.case.list()),
        subject("largest plan", pair.plan.list()),
        subject("one byte each", from(0, 64)),
        subject("two bytes each", from(64, 8_128)),
        subject("three bytes each", from(55_000, 10_000)),
    ];
    for (name, bytes) in LONGER.into_iter().zip(4..) {
        all.push(subject(name, from(1 << (7 * bytes - 3), COUNT as i64)));
    }
    all.extend([
        subject("any size", mixed),
        subject("both ends of i64", ends),
    ]);
    all
}

fn subject(name: &'static str, list: Vec<i64>) -> Subject {
    let bytes = encode(&list).bytes;
    Subject { name, list, bytes }
}
