//! Files past the program's limits are judged by the library, and it is said what the program would print.

mod common;

use common::{ask, ask_lists, input_of};
use explain::limits::note;
use gasplan::program::{self, CASE_BYTES, CASE_NUMBERS, PLAN_BYTES, PLAN_NUMBERS};
use inputs::generate::{Size, of_size};
use inputs::{Pair, Rng};
use second::verdict::line;

/// The first two lines of an answer.
fn first_lines(text: &str) -> [&str; 2] {
    let mut lines = text.lines();
    [lines.next().unwrap(), lines.next().unwrap()]
}

fn largest() -> Pair {
    let pair = of_size(&mut Rng::new(3), Size::LARGEST);
    let case = &pair.case;
    let counts = [case.nodes.len(), case.arcs.len(), case.stations.len()];
    assert_eq!((counts, pair.steps()), ([60, 120, 8], 48));
    pair
}

#[test]
fn the_largest_plan_is_judged_and_explained() {
    let mut pair = largest();
    let (case, plan) = (pair.case.list(), pair.plan.list());
    assert!(plan.len() == 41_090 && case.len() > CASE_NUMBERS);
    let answer = ask_lists(
        &case,
        &plan,
        "--all --margins --ledger all 0 48 --svg file --step 48",
    );
    let [verdict, program] = first_lines(&answer.text);
    assert_eq!(verdict, line(&second::plan::judge(&case, &plan)));
    assert!(verdict.starts_with("accepted ") && answer.accepted);
    assert!(program.starts_with("The program would print `too long` and judge nothing: it takes at most 4,096 bytes of case, "));
    assert!(program.contains("; and 8,192 bytes of plan, and there are "));
    assert!(answer.text.contains("\nledger of the nodes {0 1 2 "));
    assert!(
        answer
            .text
            .contains("\n  33 balance within the mass tolerance\n")
    );
    let picture = answer.picture.expect("a picture was asked for");
    assert!(picture.starts_with("<svg") && picture.contains("Numbers are those of step 48, "));
    pair.node_mut(48, 59).p = -1;
    let answer = ask_lists(&case, &pair.plan.list(), "--all");
    let [verdict, program] = first_lines(&answer.text);
    assert_eq!(verdict, "refused 21 48 59");
    assert!(program.starts_with("The program would print `too long`"));
    assert!(answer.text.contains("step 48, "));
    assert!(answer.text.contains("p = -1, below "));
    assert!(
        answer
            .text
            .contains("\n  verdict  21 48 59  a node's numbers: ")
    );
}

#[test]
fn too_many_numbers_for_the_program_s_lists() {
    let answer = ask("two-nodes --append case '00*1468'");
    let [verdict, program] = first_lines(&answer.text);
    assert_eq!(verdict, "refused 12 0 33");
    let said = "The program would print `refused 3 0 1525` (rule 3, too many case numbers)";
    assert!(program.starts_with(said), "{program}");
    // One number fewer has a place.
    let answer = ask("two-nodes --append case '00*1467'");
    assert!(!answer.text.contains("The program"));
    let answer = ask("two-nodes --append plan '00*3983'");
    let [verdict, program] = first_lines(&answer.text);
    assert_eq!(verdict, "refused 20 0 0");
    let said = "The program would print `refused 7 0 4008` (rule 7, too many plan numbers)";
    assert!(program.starts_with(said), "{program}");
    assert!(
        !ask("two-nodes --append plan '00*3982'")
            .text
            .contains("The program")
    );
}

#[test]
fn bytes_past_the_limit_are_too_long() {
    let sizes = ["case", "plan"].map(|file| {
        let input = common::example("two-nodes");
        let (is, most) = match file {
            "case" => (input.case_bytes.len(), CASE_BYTES),
            _ => (input.plan_bytes.len(), PLAN_BYTES),
        };
        most - is
    });
    for (file, room) in ["case", "plan"].into_iter().zip(sizes) {
        let at_the_limit = ask(&format!("two-nodes --append {file} '00*{room}'")).text;
        assert!(!at_the_limit.contains("too long"), "{at_the_limit}");
        let past_it = ask(&format!("two-nodes --append {file} '00*{}'", room + 1)).text;
        let [verdict, program] = first_lines(&past_it);
        assert!(verdict.starts_with("refused "), "{verdict}");
        assert!(program.starts_with("The program would print `too long` and judge nothing"));
        assert!(!past_it.starts_with("too long"));
    }
}

/// The note is there exactly where the program's line is another one, and has it.
#[test]
fn a_note_stands_where_the_program_differs() {
    let mut notes = 0;
    for (case_zeros, plan_zeros) in [
        (0, 0),
        (0, 9_000),
        (1_468, 0),
        (1_468, 9_000),
        (4_100, 4_000),
    ] {
        let mut input = input_of(&inputs::table_t::C, &inputs::table_t::P);
        input.case_bytes.extend(vec![0; case_zeros]);
        input.plan_bytes.extend(vec![0; plan_zeros]);
        let library = input.verdict();
        let program = program::verdict(&input.case_bytes, &input.plan_bytes).to_string();
        let its_line = line_of(&library);
        match note(&input, &library) {
            None => assert_eq!(program, its_line),
            Some(note) => {
                assert_ne!(program, its_line);
                assert!(note.contains(&format!("would print `{program}`")), "{note}");
                notes += 1;
            }
        }
    }
    assert_eq!(notes, 4);
    assert_eq!((CASE_NUMBERS, PLAN_NUMBERS), (1_500, 4_000));
}

fn line_of(answer: &gasplan::Answer<gasplan::Totals>) -> String {
    match answer {
        Ok(totals) => totals.to_string(),
        Err(refusal) => refusal.to_string(),
    }
}
