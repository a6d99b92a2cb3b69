//! Bytes that cannot be read: the number's bytes are shown, and the one at the verdict's place is marked.

mod common;

use std::ops::Range;

use common::{ask, example, input_of};
use explain::answer::answer;
use explain::report::NOT_PROVED;
use explain::request::Request;
use explain::{Input, explain_refusal};
use gasplan::Refusal;
use gasplan_text::files::File;
use inputs::damage::damage_bytes;
use inputs::{Rng, generate};

const CASE_END: &str = "rule 1, case bytes end early: is there a byte for the rest of the number?";
const CASE_BYTE: &str = "rule 2, case byte out of place: is a tenth byte 00 or 01, and a last byte after the first not 00?";
const PLAN_END: &str = "rule 5, plan bytes end early: is there a byte for the rest of the number?";
const PLAN_BYTE: &str = "rule 6, plan byte out of place: is a tenth byte 00 or 01, and a last byte after the first not 00?";

/// The example `two-nodes` with other bytes in one of its files.
fn with(file: File, range: Range<usize>, bytes: &[u8]) -> Input {
    let mut input = example("two-nodes");
    input.bytes_mut(file).splice(range, bytes.iter().copied());
    input
}

/// Ten bytes, of which the first nine say that another follows.
fn ten(last: u8) -> [u8; 10] {
    let mut bytes = [0xFF; 10];
    bytes[9] = last;
    bytes
}

/// Is this what is printed, to the letter?
fn prints(input: &Input, verdict: &str, rule: &str, line: &str) {
    let request = Request::of(&["folder".to_string()]).unwrap();
    let text = answer(input, &request).text;
    assert_eq!(text, format!("{verdict}\n{rule}\n{line}\n{NOT_PROVED}\n"));
    marks_its_place(input, input.verdict().unwrap_err());
}

/// The bytes that are shown are those from the number's first up to the place, where the mark is, and all before are whole.
fn marks_its_place(input: &Input, refusal: Refusal) {
    let Refusal { number, place, .. } = refusal;
    let bytes = input.bytes(File::of_refusal(number));
    let explanation = explain_refusal(input, refusal, None);
    let [finding] = explanation.findings.as_slice() else {
        panic!("{refusal}: {:?}", explanation.findings);
    };
    let (_, words) = finding.split_once(", from byte ").expect(finding);
    let (first, words) = words.split_once(" on, is ").expect(finding);
    let (shown, _) = words.split_once(": ").expect(finding);
    let first: usize = first.parse().expect(finding);
    let mut wanted: Vec<String> = bytes[first..place]
        .iter()
        .map(|byte| format!("{byte:02X}"))
        .collect();
    wanted.push(match number {
        1 | 5 => "[end]".to_string(),
        _ => format!("[{:02X}]", bytes[place]),
    });
    assert_eq!(shown, wanted.join(" "), "{refusal}");
    assert_eq!(matches!(number, 1 | 5), place == bytes.len(), "{refusal}");
    assert!(gasplan::read_all(&bytes[..first]).is_ok(), "{refusal}");
    assert!(bytes[first..place].iter().all(|&byte| byte >= 0x80));
}

#[test]
fn a_last_byte_00() {
    prints(
        &with(File::Case, 0..1, &[0x82, 0x00]),
        "refused 2 0 1",
        CASE_BYTE,
        "case.bin, byte 1: number 0 (edition), from byte 0 on, is 82 [00]: its last byte is 00, which a number does not need",
    );
    prints(
        &with(File::Case, 57..58, &[0x80, 0x80, 0x00]),
        "refused 2 0 59",
        CASE_BYTE,
        "case.bin, byte 59: number 32 (arc 0 zero), from byte 57 on, is 80 80 [00]: its last byte is 00, which a number does not need",
    );
    prints(
        &with(File::Plan, 0..1, &[0x82, 0x00]),
        "refused 6 0 1",
        PLAN_BYTE,
        "plan.bin, byte 1: number 0 (version), from byte 0 on, is 82 [00]: its last byte is 00, which a number does not need",
    );
    prints(
        &with(File::Plan, 2..5, &[0xF0, 0x9C, 0x86, 0x00]),
        "refused 6 0 5",
        PLAN_BYTE,
        "plan.bin, byte 5: number 2 (step 1 node 0 p), from byte 2 on, is F0 9C 86 [00]: its last byte is 00, which a number does not need",
    );
}

/// Tenth bytes that are wrong, and why.
const TENTHS: [(u8, &str); 4] = [
    (0x00, "its last byte is 00, which a number does not need"),
    (0x02, "its tenth byte is 02, and only 01 may stand there"),
    (0x80, "its tenth byte is 80, and only 01 may stand there"),
    (0xFF, "its tenth byte is FF, and only 01 may stand there"),
];

/// Nine bytes and each of the tenths in one of the files.
fn prints_tenths(file: File, range: Range<usize>, place: usize, number: &str) {
    let (name, verdict, rule) = match file {
        File::Case => ("case", format!("refused 2 0 {place}"), CASE_BYTE),
        File::Plan => ("plan", format!("refused 6 0 {place}"), PLAN_BYTE),
    };
    let first = range.start;
    let told = format!("{name}.bin, byte {place}: number {number}, from byte {first} on");
    for (tenth, why) in TENTHS {
        let shown = format!("FF FF FF FF FF FF FF FF FF [{tenth:02X}]");
        let input = with(file, range.clone(), &ten(tenth));
        prints(
            &input,
            &verdict,
            rule,
            &format!("{told}, is {shown}: {why}"),
        );
    }
}

/// The tenth's place is that of the first and nine.
#[test]
fn a_tenth_byte() {
    for (file, range, place, number) in [
        (File::Case, 0..1, 9, "0 (edition)"),
        (File::Case, 57..58, 66, "32 (arc 0 zero)"),
        (File::Plan, 1..2, 10, "1 (steps)"),
        (File::Plan, 26..26, 35, "18 (past the last field)"),
    ] {
        prints_tenths(file, range, place, number);
    }
    // A tenth byte 01 may stand there.
    let input = with(File::Plan, 26..26, &ten(0x01));
    assert_eq!(input.verdict().unwrap_err().number, 20);
}

/// A byte 02 become 82 takes in the next number's 00, which was sent rightly and is the one that is told.
#[test]
fn a_turned_bit() {
    assert_eq!(example("two-nodes").case_bytes[2..4], [0x02, 0x00]);
    prints(
        &with(File::Case, 2..3, &[0x82]),
        "refused 2 0 3",
        CASE_BYTE,
        "case.bin, byte 3: number 2 (arcs), from byte 2 on, is 82 [00]: its last byte is 00, which a number does not need",
    );
}

#[test]
fn bytes_that_end() {
    prints(
        &with(File::Case, 57..58, &[0x80]),
        "refused 1 0 58",
        CASE_END,
        "case.bin, end after 58 bytes: number 32 (arc 0 zero), from byte 57 on, is 80 [end]: \
         each byte is 80 or more, so another is due",
    );
    prints(
        &with(File::Case, 0..58, &[0x80]),
        "refused 1 0 1",
        CASE_END,
        "case.bin, end after 1 byte: number 0 (edition), from byte 0 on, is 80 [end]: \
         each byte is 80 or more, so another is due",
    );
    prints(
        &with(File::Plan, 25..26, &[0x80]),
        "refused 5 0 26",
        PLAN_END,
        "plan.bin, end after 26 bytes: number 17 (step 1 arc 0 machines), from byte 25 on, is 80 [end]: \
         each byte is 80 or more, so another is due",
    );
    prints(
        &with(File::Plan, 26..26, &[0xFF; 9]),
        "refused 5 0 35",
        PLAN_END,
        "plan.bin, end after 35 bytes: number 18 (past the last field), from byte 26 on, is \
         FF FF FF FF FF FF FF FF FF [end]: each byte is 80 or more, so another is due",
    );
}

/// A number out of its range leaves the field open only where it says which fields follow.
#[test]
fn a_case_field_is_named_where_it_is_clear() {
    let clear = "33 (past the last field)";
    for (change, number) in [
        ("'node 0 kind' 7", clear),
        ("mass-tolerance -1", clear),
        ("'node 1 actlow' 30000", clear),
        ("edition 2", "33"),
        ("steps 49", "33"),
        ("'arc 0 kind' 7", "33"),
    ] {
        let text = ask(&format!(
            "two-nodes --change case {change} --append case 80"
        ))
        .text;
        let line = format!(
            "\ncase.bin, end after 59 bytes: number {number}, from byte 58 on, is 80 [end]: "
        );
        assert!(text.contains(&line), "{change}: {text}");
    }
}

/// A plan's fields go by the case.
#[test]
fn a_plan_field_has_no_name_without_a_case() {
    let text = ask("two-nodes --all --append case 80 --append plan '80 00'").text;
    let case = "  verdict  1 0 59  case bytes end early: case.bin, end after 59 bytes\n           \
                number 33 (past the last field), from byte 58 on, is 80 [end]: ";
    assert!(text.contains(case), "{text}");
    let plan = "  also     6 0 27  plan byte out of place: plan.bin, byte 27\n           \
                number 18, from byte 26 on, is 80 [00]: ";
    assert!(text.contains(plan), "{text}");
}

/// A plan that does not begin as 20 asks, or whose case leaves its fields open, has no rows that are known.
#[test]
fn a_plan_field_is_named_where_it_is_clear() {
    let clear = "18 (past the last field)";
    for (change, number) in [
        ("case mass-tolerance 1", clear),
        ("plan 'step 1 node 0 p' 1", clear),
        ("plan version 2", "18"),
        ("plan steps 2", "18"),
        ("case edition 2", "18"),
    ] {
        let text = ask(&format!(
            "two-nodes --all --change {change} --append plan '80 00'"
        ))
        .text;
        let line = format!(" number {number}, from byte ");
        assert!(text.contains(&line), "{change}: {text}");
    }
    let mut input = with(File::Plan, 25..26, &[0x80]);
    let line = |input: &Input| explain_refusal(input, input.verdict().unwrap_err(), None).findings;
    assert!(line(&input)[0].starts_with("number 17 (step 1 arc 0 machines), "));
    input.plan_bytes[1] = 0;
    assert!(line(&input)[0].starts_with("number 17, "));
}

#[test]
fn the_mark_is_at_the_verdict_s_place() {
    let mut seen = [0; 8];
    for seed in 0..400 {
        let mut rng = Rng::new(seed);
        let pair = generate::accepted(&mut rng);
        let (case, plan) = (pair.case.list(), pair.plan.list());
        for file in File::BOTH {
            let mut input = input_of(&case, &plan);
            damage_bytes(&mut rng, input.bytes_mut(file));
            if let Err(refusal @ Refusal { number: 1..=7, .. }) = input.verdict() {
                marks_its_place(&input, refusal);
                seen[refusal.number as usize] += 1;
            }
        }
    }
    for number in [1, 2, 5, 6] {
        assert!(seen[number] >= 10, "{number}: {seen:?}");
    }
}
