//! Lists that go through text and through bytes come back the same.

use std::fs;
use std::path::{Path, PathBuf};

use gasplan::{read_all, write_all};
use gasplan_text::files::{self, Meter};
use gasplan_text::{parse, parse_as, write};

fn examples() -> Vec<PathBuf> {
    let root = Path::new(env!("CARGO_MANIFEST_DIR")).join("../../examples");
    let folders = fs::read_dir(root).expect("the examples are there");
    let mut folders: Vec<PathBuf> = folders
        .map(|entry| entry.expect("a folder can be listed").path())
        .filter(|path| path.join("case.bin").exists())
        .collect();
    folders.sort();
    assert!(folders.len() >= 8);
    folders
}

fn lists(folder: &Path) -> (Vec<i64>, Vec<i64>) {
    let list = |name| files::read_bin(&folder.join(name)).expect("an example can be read");
    (list("case.bin"), list("plan.bin"))
}

/// A fixed sequence of numbers that look random.
struct Sequence(u64);

impl Sequence {
    fn next(&mut self) -> u64 {
        self.0 = self
            .0
            .wrapping_mul(6_364_136_223_846_793_005)
            .wrapping_add(1_442_695_040_888_963_407);
        self.0 >> 11
    }

    fn below(&mut self, count: usize) -> usize {
        (self.next() % count as u64) as usize
    }

    /// Numbers of every size.
    fn number(&mut self) -> i64 {
        let number = (self.next() << 11 | self.next()) as i64;
        number >> self.below(64)
    }

    /// Changes, drops or adds some numbers.
    fn damage(&mut self, list: &mut Vec<i64>) {
        for _ in 0..=self.below(3) {
            let at = self.below(list.len() + 1);
            match self.below(4) {
                0 => list.truncate(at),
                1 => list.insert(at, self.number()),
                _ if at < list.len() => list[at] = self.number(),
                _ => list.push(self.number()),
            }
        }
    }
}

fn there_and_back(case: &[i64], plan: &[i64]) {
    assert_eq!(parse(&write::case(case)).as_deref(), Ok(case));
    assert_eq!(parse(&write::plan(plan, case)).as_deref(), Ok(plan));
    assert_eq!(parse(&write::numbers(plan)).as_deref(), Ok(plan));
    for list in [case, plan] {
        assert_eq!(read_all(&write_all(list).unwrap()).as_deref(), Ok(list));
    }
}

#[test]
fn every_example_has_the_same_text_and_bytes() {
    for folder in examples() {
        files::check(&folder).expect("text and bytes are the same");
        let (case, plan) = lists(&folder);
        there_and_back(&case, &plan);
    }
}

#[test]
fn damaged_examples_come_back() {
    let mut sequence = Sequence(1);
    for folder in examples() {
        let (case, plan) = lists(&folder);
        for _ in 0..120 {
            let (mut case, mut plan) = (case.clone(), plan.clone());
            sequence.damage(&mut case);
            sequence.damage(&mut plan);
            there_and_back(&case, &plan);
        }
    }
}

#[test]
fn lists_of_any_numbers_come_back() {
    let mut sequence = Sequence(2);
    there_and_back(&[], &[]);
    there_and_back(&[i64::MIN, i64::MAX, i64::MAX], &[i64::MAX, i64::MIN]);
    for _ in 0..2_000 {
        let mut list = || -> Vec<i64> {
            let count = sequence.below(80);
            (0..count).map(|_| sequence.number()).collect()
        };
        let (case, plan) = (list(), list());
        there_and_back(&case, &plan);
    }
}

/// A record's text is also the same again, and each row a line of it.
fn record_there_and_back(list: &[i64]) {
    let text = write::meter(list);
    let again = parse_as(Meter::Sender, &text).expect("a text that was written");
    assert_eq!(again, list);
    assert_eq!(write::meter(&again), text);
    let rows = text.lines().filter(|line| line.starts_with("time "));
    assert_eq!(rows.count(), list.len().div_ceil(2));
    assert_eq!(text.contains("cut-short"), list.len() % 2 == 1);
    assert_eq!(read_all(&write_all(list).unwrap()).as_deref(), Ok(list));
}

/// Whatever a record holds: nothing is judged.
#[test]
fn records_come_back() {
    let mut sequence = Sequence(4);
    record_there_and_back(&[]);
    record_there_and_back(&[7]);
    record_there_and_back(&[i64::MIN, i64::MAX, i64::MAX, i64::MIN, -1, 0]);
    record_there_and_back(&[7200, 5, 3600, 5, 3600, 5, 0, 5]);
    for count in 0..2_000 {
        let list: Vec<i64> = (0..count % 97).map(|_| sequence.number()).collect();
        record_there_and_back(&list);
    }
    let long: Vec<i64> = (0..10_002).map(|_| sequence.number()).collect();
    record_there_and_back(&long);
}

#[test]
fn a_record_is_written_in_columns() {
    let text = "meter

# the end of each interval in s, the mass in it in g
time  3600  grams 1798236000  # row 0
time  7200  grams         -5  # row 1
time 10800
cut-short # before grams of row 2
";
    let list = [3600, 1_798_236_000, 7200, -5, 10800];
    assert_eq!(write::meter(&list), text);
    assert_eq!(write::meter(&[]), "meter\n");
    let by_hand = "# a comment first\r\n\r\nmeter\r\n3600\t1798236000 # and here\r\n  time 7200 -5\n10800 grams 0";
    assert_eq!(
        parse(by_hand),
        Ok(vec![3600, 1_798_236_000, 7200, -5, 10800, 0])
    );
}

#[test]
fn small_heads_give_whole_cases() {
    let mut sequence = Sequence(3);
    for _ in 0..2_000 {
        let mut case = vec![1];
        case.extend((0..4).map(|_| sequence.below(4) as i64));
        let count = sequence.below(150);
        case.extend((0..count).map(|_| sequence.below(8) as i64 - 1));
        let plan: Vec<i64> = (0..count).map(|_| sequence.below(4) as i64).collect();
        there_and_back(&case, &plan);
    }
}

#[test]
fn a_folder_goes_to_text_and_back() {
    let folder = Path::new(env!("CARGO_TARGET_TMPDIR")).join("there-and-back");
    let _ = fs::remove_dir_all(&folder);
    fs::create_dir_all(&folder).expect("a folder to write into");
    for example in examples() {
        let bytes = ["case.bin", "plan.bin"].map(|name| fs::read(example.join(name)).unwrap());
        fs::write(folder.join("case.bin"), &bytes[0]).unwrap();
        fs::write(folder.join("plan.bin"), &bytes[1]).unwrap();
        files::to_text(&folder).expect("bytes become text");
        files::to_text(&folder).expect_err("a text that is there is kept");
        for name in ["case.bin", "plan.bin"] {
            fs::remove_file(folder.join(name)).unwrap();
        }
        files::to_bin(&folder).expect("text becomes bytes");
        let again = ["case.bin", "plan.bin"].map(|name| fs::read(folder.join(name)).unwrap());
        assert_eq!(again, bytes);
        for name in ["case.txt", "plan.txt"] {
            fs::remove_file(folder.join(name)).unwrap();
        }
    }
}

#[test]
fn a_difference_is_named() {
    let folder = Path::new(env!("CARGO_TARGET_TMPDIR")).join("difference");
    fs::create_dir_all(&folder).expect("a folder to write into");
    fs::write(folder.join("case.bin"), [2, 4]).unwrap();
    fs::write(folder.join("case.txt"), "numbers\n1\n3\n").unwrap();
    let error = files::check(&folder).unwrap_err();
    assert!(
        error.ends_with("case.bin: number 1 (nodes) is 2 in the bytes and 3 in the text"),
        "{error}"
    );
    fs::write(folder.join("case.bin"), [2, 0x80]).unwrap();
    let error = files::check(&folder).unwrap_err();
    assert!(
        error.contains(
            "case.bin: cannot be read, end after 2 bytes: number 1, from byte 1 on, is 80 [end]"
        ),
        "{error}"
    );
}
