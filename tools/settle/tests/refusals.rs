//! What is said of a refusal: the record, the row and the numbers.

mod common;

use common::{ask, records};
use explain::report::refused;
use gasplan::Refusal;
use inputs::Rng;
use inputs::aimed::SETTLE_AIMS;
use inputs::records::settling;
use settle::questions;

/// The verdict and the line on its numbers, on two records.
fn says(sender: &[i64], receiver: &[i64], agreed: i64, verdict: &str, line: &str) {
    let answer = ask(sender, receiver, agreed);
    assert!(!answer.settled, "{}", answer.text);
    let lines: Vec<&str> = answer.text.lines().collect();
    assert_eq!((lines[0], lines[2]), (verdict, line));
    let number = &verdict["refused ".len()..][..2];
    assert!(lines[1].starts_with(&format!("rule {number}, ")));
    assert_eq!(lines.len(), 4);
}

/// So many rows of an hour and a gram each.
fn hours(count: i64) -> Vec<i64> {
    (1..=count).flat_map(|hour| [3_600 * hour, 1]).collect()
}

#[test]
fn rows_that_are_not_whole() {
    let half = "3 numbers, and two make a row: the last row has a time and no mass";
    let (good, bad) = ([60, 5], [60, 5, 120]);
    let no = "refused 60 0 0";
    says(
        &bad,
        &good,
        -1,
        no,
        &format!("sender's record (sender.txt): {half}"),
    );
    says(
        &good,
        &bad,
        -1,
        no,
        &format!("receiver's record (receiver.txt): {half}"),
    );
    says(
        &bad,
        &bad,
        0,
        no,
        &format!("sender's record (sender.txt): {half}"),
    );
    let one = half.replace("3 numbers", "1 number");
    says(
        &good,
        &[60],
        0,
        no,
        &format!("receiver's record (receiver.txt): {one}"),
    );
}

#[test]
fn too_many_rows() {
    let most = "5,001 rows, over the 5,000 that are settled at most by 1 row";
    let no = "refused 60 0 0";
    let (good, bad) = (hours(5_000), hours(5_001));
    let sender = format!("sender's record (sender.txt): {most}");
    says(&bad, &good, 0, no, &sender);
    let receiver = format!("receiver's record (receiver.txt): {most}");
    says(&good, &bad, 0, no, &receiver);
    assert!(ask(&good, &good, 0).settled);
}

#[test]
fn an_agreed_figure_out_of_range() {
    let no = "refused 60 0 0";
    let range = "(range 0 to 1000000000000)";
    let below = format!("agreed figure: grams = -5, below 0 by 5 g {range}");
    says(&[60, -1], &[-60, 5], -5, no, &below);
    let above = format!("agreed figure: grams = 1000000000001, above 1000000000000 by 1 g {range}");
    says(&[], &[], 1_000_000_000_001, no, &above);
    assert!(ask(&[], &[], 1_000_000_000_000).settled);
}

#[test]
fn times_that_do_not_rise() {
    let bad = [-1, 5];
    let below = "row 0: time = -1, below 0 by 1 s";
    let sender = format!("sender's record (sender.txt), {below}");
    says(&bad, &bad, 0, "refused 61 0 0", &sender);
    let receiver = format!("receiver's record (receiver.txt), {below}");
    says(&[0, -9], &bad, 0, "refused 61 0 0", &receiver);
    let (equal, falling) = ([0, 1, 60, 5, 60, 5], [i64::MAX, 1, i64::MIN, 1]);
    says(
        &equal,
        &falling,
        0,
        "refused 61 0 2",
        "sender's record (sender.txt), row 2: time = 60, not above that of row 1, 60",
    );
    says(
        &[],
        &falling,
        0,
        "refused 61 0 1",
        "receiver's record (receiver.txt), row 1: time = -9223372036854775808, not above that of row 0, 9223372036854775807",
    );
}

#[test]
fn masses_out_of_range() {
    let range = "(range 0 to 1000000000000)";
    let bad = [60, 5, 90, 1_000_000_000_001];
    let above =
        format!("row 1: time = 90, grams = 1000000000001, above 1000000000000 by 1 g {range}");
    let sender = format!("sender's record (sender.txt), {above}");
    says(&bad, &[60, -1], 0, "refused 62 0 1", &sender);
    let receiver = format!("receiver's record (receiver.txt), {above}");
    says(&[60, 5], &bad, 0, "refused 62 0 1", &receiver);
    let below = format!("row 0: time = 60, grams = -1, below 0 by 1 g {range}");
    let receiver = format!("receiver's record (receiver.txt), {below}");
    says(&[], &[60, -1], 0, "refused 62 0 0", &receiver);
}

/// Whose "no" it is, as the header has it: the sender's if its record is refused by the same number beside an empty one.
fn whose(sender: &[i64], receiver: &[i64], agreed: i64, number: i64) -> &'static str {
    let agreed = if number == 60 { 0 } else { agreed };
    let refuses = |answer: gasplan::Answer<_>| answer.is_err_and(|it| it.number == number);
    if refuses(gasplan::settle(sender, &[], agreed)) {
        "sender's record"
    } else if refuses(gasplan::settle(&[], receiver, agreed)) {
        "receiver's record"
    } else {
        "agreed figure"
    }
}

#[test]
fn every_aimed_refusal_is_explained() {
    let mut seen = [0; 5];
    for seed in 0..40 {
        let mut rng = Rng::new(seed);
        let settling = settling(&mut rng);
        for (name, aim) in SETTLE_AIMS {
            let Some(made) = aim(&mut rng, &settling) else {
                continue;
            };
            let [sender, receiver] = [&made.sender, &made.receiver].map(Vec::as_slice);
            let text = ask(sender, receiver, made.agreed).text;
            let lines: Vec<&str> = text.lines().collect();
            let (number, place) = (i64::from(made.expect.number), made.expect.place);
            assert_eq!(lines[0], format!("refused {number} 0 {place}"), "{name}");
            let whose = whose(sender, receiver, made.agreed, number);
            assert!(lines[2].starts_with(whose), "{name}: {text}");
            let row = lines[2].contains(&format!(", row {place}: "));
            assert_eq!(row, number > 60, "{name}: {text}");
            assert!(!text.contains("no part of the question"), "{name}: {text}");
            seen[match (number, whose) {
                (60, "agreed figure") => 0,
                (61, "sender's record") => 1,
                (61, _) => 2,
                (62, "sender's record") => 3,
                _ => 4,
            }] += 1;
        }
    }
    assert!(seen.iter().all(|&count| count > 5), "{seen:?}");
}

/// A verdict that the questions asked here do not come to is not explained away.
#[test]
fn another_verdict_stands() {
    let records = records(&[60, 5, 60, 5], &[60, -1]);
    let refusal = |number, place| Refusal {
        number,
        step: 0,
        place,
    };
    let words = |refusal| refused(&questions::explain(&records, 0, refusal));
    assert!(words(refusal(61, 1)).contains("sender's record (sender.txt), row 1: time = 60"));
    for other in [refusal(61, 0), refusal(62, 0), refusal(60, 0)] {
        let own =
            "records: no part of the question fails by the sums made here; the verdict stands\n";
        assert!(words(other).ends_with(own), "{other}");
    }
}
