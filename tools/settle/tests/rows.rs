//! Every row with the way it was settled, and that the rows add up to the library's figures.

mod common;

use common::{ask, records, request, run, text};
use gasplan::Settlement;
use inputs::Rng;
use inputs::records::{list, settling};
use settle::answer::settled;
use settle::rows::{Row, Way, add_up, rows};

#[test]
fn the_example_s_rows() {
    let done = run(&["examples/meters", "--agreed", "1800000", "--rows"]);
    let said = text(&done.stdout);
    let lines: Vec<&str> = said.lines().collect();
    let above = "Every row in order of time (s), in g; the difference is sender less receiver.";
    assert_eq!(lines[8], above);
    let expected =
        "   time          sender        receiver  difference          stands  settled as";
    assert_eq!(lines[9], expected);
    // The difference is the agreed figure in the first of these.
    for line in [
        "  25200   1,930,495,520   1,928,695,520   1,800,000   1,930,495,520  agreed",
        "  54000   1,778,400,420   1,746,554,130  31,846,290   1,746,554,130  cut",
        "  61200   1,849,883,660   1,850,223,090    -339,430   1,849,883,660  agreed",
        "  72000   1,808,672,730               -           -   1,808,672,730  only sender",
    ] {
        assert!(lines.contains(&line), "{line}\n{said}");
    }
    let total = "  total  43,200,000,050  41,346,394,740              43,168,153,760";
    assert_eq!(lines[34], total);
    assert_eq!(lines.len(), 37);
    assert!(lines.iter().all(|line| line.len() <= 80), "{said}");
    let way = |word: &str| lines.iter().filter(|line| line.ends_with(word)).count();
    assert_eq!(
        [way("  agreed"), way("  cut"), way("  only sender")],
        [22, 1, 1]
    );
}

#[test]
fn each_way_at_its_edge() {
    let sender = [1, 100, 2, 100, 3, 100, 4, 100, 6, 7];
    let receiver = [1, 110, 2, 111, 3, 90, 4, 89, 5, 9];
    let found = rows(&records(&sender, &receiver), 10);
    let row = |time, sender: i64, receiver: i64, stands, way| Row {
        time,
        sender: (sender > 0).then_some(sender),
        receiver: (receiver > 0).then_some(receiver),
        stands,
        way,
    };
    let expected = [
        row(1, 100, 110, 100, Way::Agreed),
        row(2, 100, 111, 100, Way::Cut),
        row(3, 100, 90, 100, Way::Agreed),
        row(4, 100, 89, 89, Way::Cut),
        row(5, 0, 9, 9, Way::OnlyReceiver),
        row(6, 7, 0, 7, Way::OnlySender),
    ];
    assert_eq!(found, expected);
    let text = ask(&sender, &receiver, 10).text;
    assert!(text.starts_with("settled 405 2 2 1 1\n"), "{text}");
    let expected = "
   time  sender  receiver  difference  stands  settled as
      1     100       110         -10     100  agreed
      2     100       111         -11     100  cut
      3     100        90          10     100  agreed
      4     100        89          11      89  cut
      5       -         9           -       9  only receiver
      6       7         -           -       7  only sender
  total     407       409                 405
These rows add up to the verdict.
The verdict with its numbers is the proved library's. All else is not proved.
";
    assert!(text.ends_with(expected), "{text}");
}

#[test]
fn two_empty_records_have_no_rows() {
    let text = ask(&[], &[], 0).text;
    assert!(text.starts_with("settled 0 0 0 0 0\n"), "{text}");
    assert!(text.contains("\n  sender         0 g in 0 rows of sender.txt\n"));
    assert!(text.contains("\n  total       0         0                   0\n"));
}

/// Of any two records that settle there is an answer with rows, which is none where they do not add up.
#[test]
fn rows_add_up() {
    let mut ways = [0; 4];
    for seed in 0..300 {
        let made = settling(&mut Rng::new(seed));
        let [sender, receiver] = [&made.sender, &made.receiver].map(|rows| list(rows));
        let answer = ask(&sender, &receiver, made.agreed);
        assert!(answer.settled);
        let figures = gasplan::settle(&sender, &receiver, made.agreed).expect("figures");
        let first = answer.text.lines().next();
        assert_eq!(first, Some(figures.to_string().as_str()));
        let rows = rows(&records(&sender, &receiver), made.agreed);
        assert!(rows.is_sorted_by(|one, next| one.time < next.time));
        let lines = answer.text.lines().count();
        assert_eq!(lines, 13 + rows.len(), "{}", answer.text);
        for row in &rows {
            ways[row.way as usize] += 1;
        }
    }
    assert!(ways.iter().all(|&count| count > 100), "{ways:?}");
}

#[test]
fn rows_that_do_not_add_up_are_not_printed() {
    let (sender, receiver) = ([1, 100, 2, 100], [1, 100, 3, 9]);
    let records = records(&sender, &receiver);
    let good = gasplan::settle(&sender, &receiver, 5).unwrap();
    assert_eq!(add_up(&rows(&records, 5), &good), Ok(()));
    let wrong = |change: fn(&mut Settlement) -> &mut i64| {
        let mut figures = good;
        *change(&mut figures) += 1;
        figures
    };
    let changed = [
        wrong(|it| &mut it.total),
        wrong(|it| &mut it.agreed),
        wrong(|it| &mut it.cut),
        wrong(|it| &mut it.only_sender),
        wrong(|it| &mut it.only_receiver),
    ];
    for figures in changed {
        let error = settled(&records, &request(5, true), &figures).unwrap_err();
        let expected = format!(
            "no verdict: the library says `{figures}`, and the rows add up to `settled 209 1 0 1 1`"
        );
        assert_eq!(error, expected);
    }
    assert!(settled(&records, &request(5, true), &good).is_ok());
}
