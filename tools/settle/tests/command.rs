//! The command itself: its words, its files, its streams and how it ends.

mod common;

use std::fs::{self, File};
use std::io;
use std::process::Output;

use common::{command, folder, root, run, text, verdict};

const METERS: [&str; 3] = ["examples/meters", "--agreed", "1800000"];
const SENDER: &[u8] = b"meter\n3600 10\n7200 20\n";
const RECEIVER: &[u8] = b"meter\n3600 12\n7200 25\n";

fn error(done: &Output) -> String {
    text(&done.stderr)
}

/// Nothing is printed, and the sentence on standard error begins so.
fn no_verdict(done: &Output, begins: &str) {
    assert_eq!(done.status.code(), Some(2), "{done:?}");
    assert!(done.stdout.is_empty(), "{done:?}");
    let said = error(done);
    assert!(said.starts_with(begins), "{said}");
}

#[test]
fn the_status_tells_the_verdict() {
    let done = run(&METERS);
    assert_eq!(done.status.code(), Some(0));
    assert!(done.stderr.is_empty());
    let done = run(&["examples/meters", "--agreed", "-1"]);
    assert_eq!(done.status.code(), Some(1));
    assert_eq!(verdict(&done), "refused 60 0 0");
    assert!(done.stderr.is_empty());
    no_verdict(&run(&["examples/meters"]), "expected --agreed");
}

#[test]
fn the_example_settles_as_it_says() {
    let expected = fs::read_to_string(root().join("examples/meters/expected.txt")).unwrap();
    let names = ["txt", "bin"].map(|end| ["sender", "receiver"].map(|it| format!("{it}.{end}")));
    for [sender, receiver] in names {
        let [sender, receiver] = [sender, receiver].map(|it| format!("examples/meters/{it}"));
        let done = run(&[&sender, &receiver, METERS[1], METERS[2]]);
        assert_eq!(format!("{}\n", verdict(&done)), expected);
        let said = text(&done.stdout);
        assert!(said.contains(&sender) && said.contains(&receiver), "{said}");
    }
    let done = run(&METERS);
    assert_eq!(format!("{}\n", verdict(&done)), expected);
    let words = "settled 43168153760 22 1 1 0
  settled total  43,168,153,760 g
  agreed                     22 at most 1,800,000 g apart: the sender's stands
  cut                         1 further apart: the smaller stands
  only sender                 1 not in the receiver's record: it stands
  only receiver               0 not in the sender's record: it stands
  sender         43,200,000,050 g in 24 rows of examples/meters/sender.txt
  receiver       41,346,394,740 g in 23 rows of examples/meters/receiver.txt
The verdict with its numbers is the proved library's. All else is not proved.
";
    assert_eq!(text(&done.stdout), words);
}

#[test]
fn the_order_of_the_records_counts() {
    let folder = folder("order", &[("a", SENDER), ("b.txt", RECEIVER)]);
    let [a, b] = ["a", "b.txt"].map(|name| folder.join(name).display().to_string());
    let one = run(&[&a, &b, "--agreed", "2"]);
    assert_eq!(verdict(&one), "settled 30 1 1 0 0");
    let other = run(&[&b, "--agreed", "2", &a]);
    assert_eq!(verdict(&other), "settled 32 1 1 0 0");
    assert!(one.stderr.is_empty() && other.stderr.is_empty());
    let swapped = [
        "examples/meters/receiver.bin",
        "examples/meters/sender.txt",
        METERS[1],
        METERS[2],
    ];
    let done = run(&swapped);
    assert_eq!(verdict(&done), "settled 43155067470 22 1 0 1");
    let warnings = "warning: examples/meters/receiver.bin is the sender's record here\n\
                    warning: examples/meters/sender.txt is the receiver's record here\n";
    assert_eq!(error(&done), warnings);
}

#[test]
fn options_and_files_stand_in_any_order() {
    let before = run(&["--rows", "--agreed", "1800000", "examples/meters"]);
    let after = run(&["examples/meters", "--agreed", "1800000", "--rows"]);
    assert_eq!(before.stdout, after.stdout);
    assert!(before.stdout.len() > 1_000);
}

#[test]
fn a_folder_has_each_record_once() {
    let two = [("sender.txt", SENDER), ("receiver.bin", &[2, 2][..])];
    let place = folder("once", &two);
    let words = |name: &str| [place.join(name).display().to_string(), "0".to_string()];
    let [name, agreed] = words("");
    let settle = || run(&[&name, "--agreed", &agreed]);
    assert_eq!(verdict(&settle()), "settled 31 0 0 2 1");
    fs::write(place.join("receiver.txt"), "numbers\n1\n1\n").unwrap();
    assert_eq!(verdict(&settle()), "settled 31 0 0 2 1");
    fs::write(place.join("receiver.txt"), "meter\n1 2\n").unwrap();
    let done = settle();
    no_verdict(&done, &words("receiver.bin")[0]);
    let how = "receiver.bin: number 1 (row 0 grams) is 1 in the bytes and 2 in the text; name the two files that are to be settled\n";
    assert!(error(&done).ends_with(how), "{done:?}");
    for name in ["receiver.bin", "receiver.txt"] {
        fs::remove_file(place.join(name)).unwrap();
    }
    no_verdict(
        &settle(),
        "there is no receiver.txt and no receiver.bin in ",
    );
    no_verdict(&run(&["nowhere", "--agreed", "0"]), "nowhere is no folder");
    no_verdict(&run(&["", "--agreed", "0"]), " is no folder");
}

#[test]
fn files_that_are_of_no_use() {
    let files: [(&str, &[u8]); 4] = [
        ("good", SENDER),
        ("half", b"meter\n3600\n7200 5\n"),
        ("case", b"case\n1\n"),
        ("cut.bin", &[2, 0x80]),
    ];
    let place = folder("no-use", &files);
    let with = |name: &str| {
        let [good, other] = ["good", name].map(|it| place.join(it).display().to_string());
        let done = run(&[&good, &other, "--agreed", "0"]);
        no_verdict(&done, &other);
        error(&done)[other.len()..].to_string()
    };
    assert!(with("absent").starts_with(": No such file"));
    let said = with("half");
    assert!(
        said.starts_with(": line 2, column 5: expected a whole number for grams of row 0"),
        "{said}"
    );
    let said = with("case");
    assert!(said.contains("expected `meter` or `numbers`"), "{said}");
    let said = with("cut.bin");
    assert!(
        said.starts_with(": cannot be read, end after 2 bytes"),
        "{said}"
    );
}

#[test]
fn other_words_get_the_usage() {
    let wrong: [&[&str]; 11] = [
        &[],
        &["examples/meters"],
        &["--agreed", "5"],
        &["a", "b", "c", "--agreed", "5"],
        &["examples/meters", "--agreed"],
        &["examples/meters", "--agreed", "1,800,000"],
        &["examples/meters", "--agreed", "9223372036854775808"],
        &["examples/meters", "--agreed", "5", "--agreed", "5"],
        &["examples/meters", "--agreed", "5", "--what"],
        &["examples/meters", "--agreed", "5", "--change", "sender"],
        &[
            "examples/meters",
            "--agreed",
            "5",
            "--change",
            "case",
            "row 0 time",
            "5",
        ],
    ];
    for words in wrong {
        let done = run(words);
        no_verdict(&done, "");
        assert!(error(&done).contains("\nusage: settle SENDER"), "{words:?}");
    }
}

/// As in a text.
#[test]
fn the_agreed_figure_is_a_decimal_of_64_bits() {
    let with = |grams: &str| run(&["examples/meters", "--agreed", grams]);
    for grams in ["99999999999999999999", "+5", " 5", "5.0", "1e6", ""] {
        let expected = "expected a whole number of grams, in decimal and of 64 bits, found ";
        no_verdict(&with(grams), &format!("{expected}'{grams}'\n"));
    }
    for grams in [i64::MIN, i64::MAX] {
        assert_eq!(verdict(&with(&grams.to_string())), "refused 60 0 0");
    }
}

#[test]
fn a_change_leaves_the_files() {
    let files = ["sender.txt", "sender.bin"].map(|it| root().join("examples/meters").join(it));
    let before = files.each_ref().map(|path| fs::read(path).unwrap());
    let with = |field: &str, value: &str| {
        let change = ["--change", "sender", field, value];
        run(&[&METERS[..], &change].concat())
    };
    assert_eq!(
        verdict(&with("row 0 grams", "1712704921")),
        "settled 43168153761 22 1 1 0"
    );
    no_verdict(
        &with("row 24 grams", "5"),
        "no field of the sender's record is called 'row 24 grams'",
    );
    no_verdict(
        &with("row 23 grams", "5.0"),
        "row 23 grams: expected a whole number for grams of row 23",
    );
    assert_eq!(files.map(|path| fs::read(path).unwrap()), before);
}

/// What is told of a changed record is not told of its file.
#[test]
fn a_change_is_told() {
    let change = |meter, field, value| ["--change", meter, field, value];
    let words = [
        &METERS[..],
        &change("receiver", "row 14 grams", "1778000000"),
        &change("receiver", "row 19 time", "75601"),
        &change("receiver", "row 19 time", "72000"),
    ];
    let said = text(&run(&words.concat()).stdout);
    let lines: Vec<&str> = said.lines().collect();
    let expected = [
        "settled 43152987590 22 1 1 0",
        "with receiver row 14 grams = 1,778,000,000 in place of 1,746,554,130",
        "with receiver row 19 time = 75601 in place of 75600",
        "with receiver row 19 time = 72000 in place of 75601",
    ];
    assert_eq!(lines[..4], expected);
    let files = [
        "  sender         43,200,000,050 g in 24 rows of examples/meters/sender.txt",
        "  receiver       41,377,840,610 g in 23 rows of examples/meters/receiver.txt, as changed",
    ];
    assert_eq!(lines[9..11], files);
    let words = [&METERS[..], &change("sender", "row 14 grams", "-250")];
    let said = text(&run(&words.concat()).stdout);
    let lines: Vec<&str> = said.lines().collect();
    let with = "with sender row 14 grams = -250 in place of 1,778,400,420";
    assert_eq!(lines[..2], ["refused 62 0 14", with]);
    let file = "sender's record (examples/meters/sender.txt, as changed), row 14: ";
    assert!(lines[3].starts_with(file), "{said}");
    assert!(!text(&run(&METERS).stdout).contains("changed"));
}

#[test]
fn help_is_an_answer() {
    for words in [&["-h"][..], &["--help"], &["a", "--agreed", "-h"]] {
        let done = run(words);
        assert_eq!(done.status.code(), Some(0), "{words:?}");
        assert!(done.stdout.starts_with(b"usage: settle SENDER RECEIVER"));
        assert!(done.stderr.is_empty());
    }
}

#[test]
fn output_that_cannot_be_written_is_an_error() {
    let refused = ["examples/meters", "--agreed", "-1"];
    for words in [&METERS[..], &refused, &["--help"]] {
        let full = File::options().write(true).open("/dev/full").unwrap();
        let done = command(words).stdout(full).output().unwrap();
        no_verdict(&done, "standard output: No space left");
        let (reader, writer) = io::pipe().unwrap();
        drop(reader);
        let done = command(words).stdout(writer).output().unwrap();
        no_verdict(&done, "standard output: Broken pipe");
    }
    let full = File::options().write(true).open("/dev/full").unwrap();
    let done = command(&["--what"]).stderr(full).output().unwrap();
    assert_eq!(done.status.code(), Some(2));
}
