//! The program's line: its limits, and files that are missing.

use std::fs;
use std::path::Path;

use inputs::bytes::encode;
use inputs::table_t::{C, P};
use second::program::{line, line_of_folder};

const CASE_BYTES: usize = 4_096;
const PLAN_BYTES: usize = 8_192;

/// The list's bytes, filled up with numbers 0 to this length.
fn filled(list: &[i64], length: usize) -> Vec<u8> {
    let mut bytes = encode(list).bytes;
    bytes.resize(length, 0);
    bytes
}

/// Where the first number past the room starts.
fn first_past(bytes_of: &[i64], room: usize) -> usize {
    encode(bytes_of).bytes.len() + room - bytes_of.len()
}

#[test]
fn a_longer_file_is_too_long() {
    let (case, plan) = (encode(&C).bytes, encode(&P).bytes);
    let long_case = filled(&C, CASE_BYTES + 1);
    let long_plan = filled(&P, PLAN_BYTES + 1);
    assert_eq!(line(Some(&long_case), Some(&plan)), "too long");
    assert_eq!(line(Some(&case), Some(&long_plan)), "too long");
    assert_eq!(line(None, Some(&long_plan)), "too long");
    assert_eq!(line(Some(&long_case), None), "too long");
}

#[test]
fn a_file_within_its_limit_may_hold_too_many_numbers() {
    let case = filled(&C, CASE_BYTES);
    let plan = filled(&P, PLAN_BYTES);
    let at = first_past(&C, 1_500);
    assert_eq!(line(Some(&case), Some(&plan)), format!("refused 3 0 {at}"));
    let at = first_past(&P, 4_000);
    let case = encode(&C).bytes;
    assert_eq!(line(Some(&case), Some(&plan)), format!("refused 7 0 {at}"));
}

#[test]
fn a_list_may_be_full() {
    let mut case = C.to_vec();
    case.resize(1_500, 0);
    let left_over = format!("refused 12 0 {}", C.len());
    assert_eq!(line(Some(&encode(&case).bytes), None), left_over);
    let mut plan = P.to_vec();
    plan.resize(4_000, 0);
    let (case, plan) = (encode(&C).bytes, encode(&plan).bytes);
    assert_eq!(line(Some(&case), Some(&plan)), "refused 20 0 0");
}

#[test]
fn a_missing_file_counts_as_empty() {
    let (case, plan) = (encode(&C).bytes, encode(&P).bytes);
    assert_eq!(line(None, None), line(Some(&[]), Some(&[])));
    assert_eq!(line(None, Some(&plan)), "refused 10 0 0");
    assert_eq!(line(Some(&case), None), "refused 20 0 0");
}

#[test]
fn files_of_a_folder_are_read() {
    let folder = Path::new(env!("CARGO_TARGET_TMPDIR")).join("program");
    let (case, plan) = (folder.join("case.bin"), folder.join("plan.bin"));
    fs::create_dir_all(&folder).expect("a folder to write into");
    for file in [&case, &plan] {
        if file.exists() {
            fs::remove_file(file).expect("an old file goes");
        }
    }
    let said = || line_of_folder(&folder).expect("the folder can be read");
    assert_eq!(said(), line(None, None));
    fs::write(&case, encode(&C).bytes).expect("a case is written");
    assert_eq!(said(), line(Some(&encode(&C).bytes), None));
    fs::write(&plan, encode(&P).bytes).expect("a plan is written");
    assert_eq!(
        said(),
        line(Some(&encode(&C).bytes), Some(&encode(&P).bytes))
    );
    fs::write(&plan, vec![0; 3 * PLAN_BYTES]).expect("a long plan is written");
    assert_eq!(said(), "too long");
}
