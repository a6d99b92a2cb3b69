//! The proved program on files whose lines were worked out by hand. Where it has not been built there is nothing to run, as in `beside::program`.

use beside::program::Program;
use inputs::Rng;
use inputs::aimed::edges::EDGES;
use inputs::bytes::encode;
use inputs::model::Pair;
use inputs::table_t::{C, P};

const CASE_BYTES: usize = 4_096;
const PLAN_BYTES: usize = 8_192;
const CASE_NUMBERS: usize = 1_500;
const PLAN_NUMBERS: usize = 4_000;

/// Holds the program's line for two files against the one that is wanted.
fn prints(files: [Option<&[u8]>; 2], wanted: &str) {
    if let Some(program) = Program::find() {
        let [case, plan] = files;
        assert_eq!(program.line(case, plan), wanted);
    }
}

/// The list's bytes, filled up with numbers 0 to this length.
fn filled(list: &[i64], length: usize) -> Vec<u8> {
    let mut bytes = encode(list).bytes;
    bytes.resize(length, 0);
    bytes
}

/// The list, filled up with numbers 0 to so many.
fn full(list: &[i64], numbers: usize) -> Vec<u8> {
    let mut list = list.to_vec();
    list.resize(numbers, 0);
    encode(&list).bytes
}

#[test]
fn lines_of_table_t() {
    let (case, plan) = (encode(&C).bytes, encode(&P).bytes);
    let accepted = "accepted 0 0 0 0 599988 611988";
    prints([Some(&case), Some(&plan)], accepted);
    let mut other = P;
    other[15] = 901;
    let plan = encode(&other).bytes;
    prints([Some(&case), Some(&plan)], "refused 28 1 0");
}

#[test]
fn a_longer_file_is_too_long_and_no_shorter_one() {
    let (case, plan) = (encode(&C).bytes, encode(&P).bytes);
    let long_case = filled(&C, CASE_BYTES + 1);
    let long_plan = filled(&P, PLAN_BYTES + 1);
    prints([Some(&long_case), Some(&plan)], "too long");
    prints([Some(&case), Some(&long_plan)], "too long");
    prints([None, Some(&long_plan)], "too long");
    let too_long = vec![0; 3 * PLAN_BYTES];
    prints([Some(&case), Some(&too_long)], "too long");
    // The first number past the room: every number of the fill has one byte.
    let at = case.len() + CASE_NUMBERS - C.len();
    let case_at_limit = filled(&C, CASE_BYTES);
    prints([Some(&case_at_limit), None], &format!("refused 3 0 {at}"));
    let at = plan.len() + PLAN_NUMBERS - P.len();
    let plan_at_limit = filled(&P, PLAN_BYTES);
    prints(
        [Some(&case), Some(&plan_at_limit)],
        &format!("refused 7 0 {at}"),
    );
}

/// The byte that is wrong, or the length where the bytes run out, in either file.
#[test]
fn a_byte_that_is_wrong_is_named() {
    let (case, plan) = (encode(&C).bytes, encode(&P).bytes);
    prints([Some(&[0x80]), Some(&plan)], "refused 1 0 1");
    prints([Some(&[0x80, 0]), Some(&plan)], "refused 2 0 1");
    let tenth = [[0x80; 9].as_slice(), &[2]].concat();
    prints([Some(&tenth), None], "refused 2 0 9");
    prints([Some(&case), Some(&tenth)], "refused 6 0 9");
    let (length, cut) = (plan.len() + 2, [&plan, [0xFF; 2].as_slice()].concat());
    prints([Some(&case), Some(&cut)], &format!("refused 5 0 {length}"));
    let (at, zero) = (plan.len() + 1, [&plan, [0xFF, 0, 1].as_slice()].concat());
    prints([Some(&case), Some(&zero)], &format!("refused 6 0 {at}"));
}

#[test]
fn lists_may_be_full() {
    let case = full(&C, CASE_NUMBERS);
    prints([Some(&case), None], &format!("refused 12 0 {}", C.len()));
    let (case, plan) = (encode(&C).bytes, full(&P, PLAN_NUMBERS));
    prints([Some(&case), Some(&plan)], "refused 20 0 0");
}

#[test]
fn a_missing_file_counts_as_empty() {
    let (case, plan) = (encode(&C).bytes, encode(&P).bytes);
    prints([None, None], "refused 10 0 0");
    prints([None, Some(&plan)], "refused 10 0 0");
    prints([Some(&case), None], "refused 20 0 0");
    prints([Some(&case), Some(&[])], "refused 20 0 0");
}

/// The totals that were worked out by hand, and totals of one digit and of 14.
#[test]
fn totals_in_decimal() {
    let known = EDGES.iter().find(|(name, _)| *name == "totals");
    let (_, known) = known.expect("the edge of the totals");
    let [edge, _] = known(&mut Rng::new(0), &Pair::default());
    let (case, plan) = (encode(&edge.case).bytes, encode(&edge.plan).bytes);
    let wanted = "accepted 23 10 1123 216 36000 36098";
    prints([Some(&case), Some(&plan)], wanted);
    let [case, plan] = wide().map(|list| encode(&list).bytes);
    let wanted = "accepted 0 9 0 0 40000000000000 40000000000000";
    prints([Some(&case), Some(&plan)], wanted);
}

/// A source and a sink at 200,000 mbar all along, and a pipe with the largest c between them.
fn wide() -> [Vec<i64>; 2] {
    let case = [
        [1, 2, 1, 0, 1, 0, 0, 60].as_slice(),
        &[1, 200_000, 0, 200_000, 0, 200_000, 909],
        &[2, 200_000, 0, 200_000, 0, 200_000, -900],
        &[2, 0, 1, 2_000],
        &[100_000_000],
        &[0; 6],
    ];
    let plan = [
        [1, 1].as_slice(),
        &[200_000, 900, 9, 0, 0, 0],
        &[200_000, -900, 0, 0, 0, 0],
        &[900, 900, 0, 0],
    ];
    [case.concat(), plan.concat()]
}
