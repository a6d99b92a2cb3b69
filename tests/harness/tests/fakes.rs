//! Judges that are wrong in one thing: the harness must find every one of them. Those that settle are in `settlers`.

use harness::calls::{self, NO_ROOM, OUT_PLACES};
use harness::{Beside, Judge, codec_rounds, rounds, settlement_rounds};

/// Rounds in which a fake has to fall.
const ROUNDS: u64 = 300;

fn falls(judge: Judge) -> bool {
    let mut beside = Beside::new(judge);
    (0..ROUNDS).any(|seed| {
        rounds::round(&mut beside, seed).is_err()
            || codec_rounds::round(&mut beside, seed).is_err()
            || settlement_rounds::round(&mut beside, seed).is_err()
    })
}

/// Refuses by the right questions, but for those that the test picks: these it waves through.
fn lenient(waved: impl Fn(i64, &[i64]) -> bool + Copy + 'static) -> Judge {
    let wave = move |answer: i64, out: &mut [i64]| {
        if answer > 0 && waved(answer, out) {
            out[..OUT_PLACES].fill(0);
            return 0;
        }
        answer
    };
    Judge {
        plan: Some(Box::new(move |case, plan, out| {
            wave(calls::judge_plan(case, plan, out), out)
        })),
        bytes: Some(Box::new(move |case, plan, a, b, out| {
            wave(calls::judge_bytes(case, plan, a, b, out), out)
        })),
        ledger: Some(Box::new(move |case, plan, set, s, t, out| {
            wave(calls::draw_ledger(case, plan, set, s, t, out), out)
        })),
        settle: Some(Box::new(move |sender, receiver, agreed, out| {
            wave(calls::settle(sender, receiver, agreed, out), out)
        })),
        ..Judge::default()
    }
}

#[test]
fn the_second_checker_itself_stands() {
    assert!(!falls(Judge::second()));
}

#[test]
fn a_judge_blind_to_one_question_falls() {
    let blind_on_bytes = [1, 2, 3, 5, 6, 7];
    let blind_on_lists = (10..=17).chain(20..=33).chain(40..=41).chain(60..=62);
    for question in blind_on_bytes.into_iter().chain(blind_on_lists) {
        let judge = lenient(move |answer, _| answer == question);
        assert!(falls(judge), "blind to {question}");
    }
}

#[test]
fn a_judge_that_accepts_all_or_refuses_all_falls() {
    assert!(falls(lenient(|_, _| true)));
    let refusing = Judge {
        plan: Some(Box::new(|_, _, out| {
            if out.len() < OUT_PLACES {
                return NO_ROOM;
            }
            out[..2].fill(0);
            20
        })),
        ..Judge::default()
    };
    assert!(falls(refusing));
}

#[test]
fn a_judge_that_waves_later_steps_through_falls() {
    assert!(falls(lenient(|_, out| out[0] > 1)));
}

#[test]
fn an_invented_total_or_figure_falls() {
    for place in 0..OUT_PLACES {
        let more = move |answer: i64, out: &mut [i64]| {
            if answer == 0 {
                out[place] += 1;
            }
            answer
        };
        let totals = Judge {
            plan: Some(Box::new(move |case, plan, out| {
                more(calls::judge_plan(case, plan, out), out)
            })),
            ..Judge::default()
        };
        assert!(falls(totals), "total {place}");
        let figures = Judge {
            ledger: Some(Box::new(move |case, plan, set, s, t, out| {
                more(calls::draw_ledger(case, plan, set, s, t, out), out)
            })),
            ..Judge::default()
        };
        assert!(falls(figures), "figure {place}");
    }
}

#[test]
fn a_ledger_of_zeros_falls() {
    let zeros = Judge {
        ledger: Some(Box::new(|case, plan, set, s, t, out| {
            let answer = calls::draw_ledger(case, plan, set, s, t, out);
            if answer == 0 {
                out[..OUT_PLACES].fill(0);
            }
            answer
        })),
        ..Judge::default()
    };
    assert!(falls(zeros));
}

#[test]
fn a_wrong_place_or_a_touched_place_of_out_falls() {
    for place in [0, 1, 2, OUT_PLACES] {
        let touching = Judge {
            plan: Some(Box::new(move |case, plan, out| {
                let answer = calls::judge_plan(case, plan, out);
                if let Some(touched) = out.get_mut(place).filter(|_| answer > 0) {
                    *touched += 1;
                }
                answer
            })),
            ..Judge::default()
        };
        assert!(falls(touching), "place {place}");
    }
}

#[test]
fn a_judge_that_answers_into_a_short_out_falls() {
    let careless = Judge {
        plan: Some(Box::new(|case, plan, out| {
            let answer = calls::judge_plan(case, plan, out);
            if let Some(first) = out.first_mut().filter(|_| answer == NO_ROOM) {
                *first = 0;
            }
            answer
        })),
        ..Judge::default()
    };
    assert!(falls(careless));
}

fn reader(read: impl Fn(&[u8], &mut [i64], &mut [i64]) -> i64 + 'static) -> Judge {
    Judge {
        read: Some(Box::new(read)),
        ..Judge::default()
    }
}

fn writer(write: impl Fn(&[i64], &mut [u8], &mut [i64]) -> i64 + 'static) -> Judge {
    Judge {
        write: Some(Box::new(write)),
        ..Judge::default()
    }
}

#[test]
fn a_reader_with_a_fault_falls() {
    let stores_nothing = reader(|bytes, list, out| calls::read(bytes, &mut list.to_vec(), out));
    assert!(falls(stores_nothing), "stores nothing");
    let last_place_unused = reader(|bytes, list, out| {
        let room = list.len().saturating_sub(1);
        calls::read(bytes, &mut list[..room], out)
    });
    assert!(
        falls(last_place_unused),
        "claims early that no place is free"
    );
    let clears_the_rest = reader(|bytes, list, out| {
        let answer = calls::read(bytes, list, out);
        if answer == 0 && out[0] < list.len() as i64 {
            list[out[0] as usize] = 0;
        }
        answer
    });
    assert!(falls(clears_the_rest), "clears a place past the count");
}

#[test]
fn a_byte_early_falls() {
    for question in [1, 2, 3, 5, 6, 7] {
        let early = move |answer: i64, out: &mut [i64]| {
            if answer == question {
                out[1] -= 1;
            }
            answer
        };
        let in_strings = Judge {
            bytes: Some(Box::new(move |case, plan, a, b, out| {
                early(calls::judge_bytes(case, plan, a, b, out), out)
            })),
            ..Judge::default()
        };
        assert!(falls(in_strings), "{question} in one of two strings");
        let alone = reader(move |bytes, list, out| early(calls::read(bytes, list, out), out));
        assert!(question > 3 || falls(alone), "{question}");
    }
}

#[test]
fn a_writer_with_a_fault_falls() {
    let too_careful = writer(|list, bytes, out| {
        let room = bytes.len().saturating_sub(1);
        calls::write(list, &mut bytes[..room], out)
    });
    assert!(falls(too_careful), "claims early that bytes don't fit");
    let writes_what_fits = writer(|list, bytes, out| {
        let answer = calls::write(list, bytes, out);
        if let Some(first) = bytes.first_mut().filter(|_| answer == 4) {
            *first = 0;
        }
        answer
    });
    assert!(falls(writes_what_fits), "writes though not all fits");
}
