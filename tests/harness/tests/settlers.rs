//! Settlers that are wrong in one thing: the harness must find every one of them.

use std::cmp::Ordering;

use harness::calls::{self, NO_ROOM, OUT_PLACES};
use harness::{Beside, Judge, edges, settlement_rounds};

/// Rounds in which a fake has to fall.
const ROUNDS: u64 = 300;

fn settler(settle: impl Fn(&[i64], &[i64], i64, &mut [i64]) -> i64 + 'static) -> Judge {
    Judge {
        settle: Some(Box::new(settle)),
        ..Judge::default()
    }
}

/// The seeds of its rounds, and the edges, at which a fake is found out.
fn faults(fake: &impl Fn() -> Judge) -> [usize; 2] {
    let mut beside = Beside::new(fake());
    let rounds = 0..ROUNDS;
    let rounds = rounds.filter(|&seed| settlement_rounds::round(&mut beside, seed).is_err());
    [
        rounds.count(),
        edges::wrong(&mut Beside::new(fake()), 1).len(),
    ]
}

/// Is it found out in rounds, and at an edge as well?
fn falls(fake: impl Fn() -> Judge) -> bool {
    faults(&fake).iter().all(|&count| count > 0)
}

/// What a merge does with a time of both records: the mass that stands, whether the two agree, and how many rows of the
/// receiver's record it is done with.
struct Matched {
    stands: i64,
    agrees: bool,
    done: usize,
}

type Match = fn(i64, i64, i64) -> Matched;

fn as_it_is(sent: i64, received: i64, agreed: i64) -> Matched {
    let agrees = (sent - received).abs() <= agreed;
    Matched {
        stands: if agrees { sent } else { sent.min(received) },
        agrees,
        done: 1,
    }
}

/// Total, agreed, cut, only sender, only receiver.
fn merged(sender: &[i64], receiver: &[i64], agreed: i64, matched: Match) -> [i64; 5] {
    let (sent, received) = (sender.as_chunks::<2>().0, receiver.as_chunks::<2>().0);
    let (mut i, mut j) = (0, 0);
    let mut figures = [0; 5];
    while i < sent.len() || j < received.len() {
        let order = match (sent.get(i), received.get(j)) {
            (Some(one), Some(other)) => one[0].cmp(&other[0]),
            (Some(_), None) => Ordering::Less,
            _ => Ordering::Greater,
        };
        let (way, stands, done) = match order {
            Ordering::Less => (3, sent[i][1], [1, 0]),
            Ordering::Greater => (4, received[j][1], [0, 1]),
            Ordering::Equal => {
                let it = matched(sent[i][1], received[j][1], agreed);
                (if it.agrees { 1 } else { 2 }, it.stands, [1, it.done])
            }
        };
        figures[way] += 1;
        figures[0] += stands;
        (i, j) = (i + done[0], j + done[1]);
    }
    figures
}

/// Refuses as the second checker, and settles by a merge.
fn merging(matched: Match) -> Judge {
    settler(move |sender, receiver, agreed, out| {
        let answer = calls::settle(sender, receiver, agreed, out);
        if answer == 0 {
            out[..5].copy_from_slice(&merged(sender, receiver, agreed, matched));
        }
        answer
    })
}

/// Does something to the figures.
type Spoil = fn(&mut [i64]);

/// Settles as the second checker, and then spoils the figures.
fn spoiling(spoil: Spoil) -> Judge {
    settler(move |sender, receiver, agreed, out| {
        let answer = calls::settle(sender, receiver, agreed, out);
        if answer == 0 {
            spoil(out);
        }
        answer
    })
}

#[test]
fn the_second_checker_and_a_merge_stand() {
    assert_eq!(faults(&Judge::second), [0, 0]);
    assert_eq!(faults(&|| settler(calls::settle_merged)), [0, 0]);
    assert_eq!(faults(&|| merging(as_it_is)), [0, 0]);
}

/// What a merge can do wrong with a time of both records.
const WRONG_MATCHES: &[(&str, Match)] = &[
    ("the larger stands", |sent, received, agreed| {
        let it = as_it_is(sent, received, agreed);
        let stands = if it.agrees { sent } else { sent.max(received) };
        Matched { stands, ..it }
    }),
    (
        "the receiver's stands where they agree",
        |sent, received, agreed| {
            let it = as_it_is(sent, received, agreed);
            let stands = if it.agrees { received } else { it.stands };
            Matched { stands, ..it }
        },
    ),
    (
        "the smaller stands where they agree",
        |sent, received, agreed| Matched {
            stands: sent.min(received),
            ..as_it_is(sent, received, agreed)
        },
    ),
    (
        "the sender's stands where they do not agree",
        |sent, received, agreed| Matched {
            stands: sent,
            ..as_it_is(sent, received, agreed)
        },
    ),
    (
        "less than the agreed figure is asked for",
        |sent, received, agreed| as_it_is(sent, received, agreed - 1),
    ),
    ("a gram more is let through", |sent, received, agreed| {
        as_it_is(sent, received, agreed + 1)
    }),
    (
        "a receiver that has more agrees",
        |sent, received, agreed| as_it_is(sent, received.min(sent), agreed),
    ),
    (
        "the receiver's row stays for the next",
        |sent, received, agreed| Matched {
            done: 0,
            ..as_it_is(sent, received, agreed)
        },
    ),
];

#[test]
fn a_wrong_match_falls() {
    for &(name, matched) in WRONG_MATCHES {
        assert!(falls(|| merging(matched)), "{name}");
    }
}

#[test]
fn other_figures_fall() {
    let wrong: [(&str, Spoil); 6] = [
        ("agreed and cut exchanged", |out| out.swap(1, 2)),
        ("the two records exchanged", |out| out.swap(3, 4)),
        ("the total alone", |out| out[1..5].fill(0)),
        ("the counts alone", |out| out[0] = 0),
        ("a pair counted as two", |out| out[1] *= 2),
        ("a sixth figure", |out| out[5] = 0),
    ];
    for (name, spoil) in wrong {
        assert!(falls(|| spoiling(spoil)), "{name}");
    }
    let floating = || spoiling(|out| out[0] = out[0] as f64 as i64);
    assert_eq!(faults(&floating)[1], 1, "a total in floating point");
}

#[test]
fn a_row_that_is_left_out_falls() {
    let without = |rows: fn(&[i64]) -> &[i64]| {
        settler(move |sender, receiver, agreed, out| {
            let answer = calls::settle(sender, receiver, agreed, out);
            if answer == 0 && receiver.len() > 2 {
                calls::settle(sender, rows(receiver), agreed, out);
            }
            answer
        })
    };
    assert!(falls(|| without(|list| &list[2..])), "the first");
    assert!(
        falls(|| without(|list| &list[..list.len() - 2])),
        "the last"
    );
}

/// Refuses what these two records are refused for, and settles the right ones.
fn asking(asked: for<'a> fn([&'a [i64]; 2]) -> [&'a [i64]; 2]) -> Judge {
    settler(move |sender, receiver, agreed, out| {
        let [one, other] = asked([sender, receiver]);
        match calls::settle(one, other, agreed, &mut out.to_vec()) {
            0 => calls::settle(sender, receiver, agreed, out),
            _ => calls::settle(one, other, agreed, out),
        }
    })
}

#[test]
fn another_order_of_questions_falls() {
    let receiver_first = || asking(|[sender, receiver]| [receiver, sender]);
    assert!(falls(receiver_first), "the receiver's record first");
    let one_by_one = || asking(|[sender, _]| [sender, &[]]);
    assert!(falls(one_by_one), "all of the sender's record first");
}

/// Makes a number, with its step and place, another one.
type Change = fn(i64, &mut [i64]) -> i64;

#[test]
fn a_wrong_refusal_falls() {
    let wrong: [(&str, Change); 5] = [
        ("the row in place of the step", |answer, out| {
            out.swap(0, 1);
            answer
        }),
        ("the number's index", |answer, out| {
            out[1] *= 2;
            answer
        }),
        ("rows from 1", |answer, out| {
            out[1] += 1;
            answer
        }),
        ("61 and 62 exchanged", |answer, _| 123 - answer),
        ("a place more", |answer, out| {
            out[2] = 0;
            answer
        }),
    ];
    for (name, change) in wrong {
        let fake = || {
            settler(move |sender, receiver, agreed, out| {
                match calls::settle(sender, receiver, agreed, out) {
                    answer @ 61..=62 => change(answer, out),
                    answer => answer,
                }
            })
        };
        assert!(falls(fake), "{name}");
    }
}

#[test]
fn figures_in_an_out_of_five_places_fall() {
    let five = || {
        settler(|sender, receiver, agreed, out| {
            let mut long = [0; OUT_PLACES];
            let answer = calls::settle(sender, receiver, agreed, out);
            if answer == NO_ROOM && out.len() == 5 {
                calls::settle(sender, receiver, agreed, &mut long);
                out.copy_from_slice(&long[..5]);
            }
            answer
        })
    };
    assert!(faults(&five)[0] > 0);
}
