//! Text that is wrong gets its line, its column and what was expected there.

use gasplan_text::{Error, parse};

/// The case of table T, as short as it can be written.
const CASE: &str = "case\n1 2 1 0 1 0 0 60\n";

fn wrong(text: &str, line: usize, column: usize, expected: &str, found: &str) {
    let error = parse(text).expect_err(text);
    assert_eq!((error.line, error.column), (line, column), "{error}");
    assert!(error.expected.contains(expected), "{error}");
    assert_eq!(error.found, found, "{error}");
}

#[test]
fn the_first_word_says_what_a_text_holds() {
    let first = "`case`, `plan`, `meter` or `numbers`";
    wrong("", 1, 1, first, "the end of the text");
    wrong("# nothing\n\n", 3, 1, first, "the end of the text");
    wrong("  edition 1\n", 1, 3, first, "`edition`");
    wrong("numbers 3\n", 1, 9, "the end of the line", "`3`");
    wrong("case # a case\n\nplan\n", 3, 1, "`edition`", "`plan`");
}

#[test]
fn a_plan_says_how_many_rows_its_steps_have() {
    wrong("plan\n", 1, 5, "the count of nodes", "the end of the line");
    wrong("plan two nodes\n", 1, 6, "the count of nodes", "`two`");
    wrong("plan 2 arcs\n", 1, 8, "`nodes`", "`arcs`");
    wrong("plan -2 nodes\n", 1, 6, "the count of nodes", "`-2`");
    wrong(
        "plan 2 nodes 1 arcs 0\n",
        1,
        22,
        "`stations`",
        "the end of the line",
    );
}

#[test]
fn one_number_or_named_field_a_line() {
    wrong(CASE, 2, 3, "the end of the line or a comment", "`2`");
    wrong(
        "case\nedition 1 1\n",
        2,
        11,
        "the end of the line or a comment",
        "`1`",
    );
    wrong(
        "case\nedition\n",
        2,
        8,
        "a whole number for edition",
        "the end of the line",
    );
    wrong(
        "case\nedition # 1\n",
        2,
        8,
        "a whole number for edition",
        "the end of the line",
    );
}

#[test]
fn a_name_is_that_of_the_field_that_is_due() {
    wrong("case\nedition 1\narcs 1\n", 3, 1, "`nodes`", "`arcs`");
    let plan = "plan 1 nodes 0 arcs 0 stations\n1\n1\np 5\ns+ 0\n";
    wrong(plan, 5, 1, "`d` (d of node 0 at step 1)", "`s+`");
}

#[test]
fn numbers_are_whole_decimal_and_of_64_bits() {
    for number in [
        "1.5",
        "0x10",
        "+1",
        "1e3",
        "--1",
        "-",
        "9223372036854775808",
        "1,000",
    ] {
        let text = format!("numbers\n  {number} # no number\n");
        let error = parse(&text).expect_err(number);
        assert_eq!(error.line, 2, "{error}");
        let comma = number == "1,000";
        assert_eq!(error.column, if comma { 4 } else { 3 }, "{error}");
    }
    let ends = "numbers\n-9223372036854775808\n9223372036854775807\n-0\n007\n";
    assert_eq!(parse(ends), Ok(vec![i64::MIN, i64::MAX, 0, 7]));
}

#[test]
fn columns_count_signs_and_not_bytes() {
    wrong("case\n\u{a0}édition 1\n", 2, 2, "`edition`", "`édition`");
    wrong(
        "numbers\n1\r\n\tzwölf\r\n",
        3,
        2,
        "a whole number",
        "`zwölf`",
    );
}

/// A case with one node, up to the field that is due.
fn node_text(rest: &str) -> String {
    format!("case\n1\n1\n0\n1\n1\n0\n0\n60\n{rest}")
}

#[test]
fn kinds_are_words_or_numbers() {
    let text = node_text("kind pipe\n");
    wrong(
        &text,
        10,
        6,
        "inner, source, sink or a number for kind of node 0",
        "`pipe`",
    );
    let text = node_text("kind 9\n") + "1\n2\n3\n4\n5\n6\ncut-short\n";
    assert_eq!(parse(&text).unwrap()[8..], [9, 1, 2, 3, 4, 5, 6]);
}

/// A station's first direction is due in this text.
fn direction_text(rest: &str) -> String {
    node_text("inner\n").replace("inner\n", "0\n1\n1\n1\n1\n1\n0\n1\n1\n0\n0\n0\n") + rest
}

#[test]
fn sets_are_items_or_numbers() {
    let due = "item 0 to 62 or `}`";
    wrong(&direction_text("entry {0 63}\n"), 22, 10, due, "`63`");
    wrong(&direction_text("entry {0 a}\n"), 22, 10, due, "`a`");
    wrong(
        &direction_text("entry {0\n"),
        22,
        9,
        due,
        "the end of the line",
    );
    wrong(
        &direction_text("entry {3 3}\n"),
        22,
        10,
        "each item of a set once",
        "`3`",
    );
    wrong(
        &direction_text("entry {} {}\n"),
        22,
        10,
        "the end of the line",
        "`{`",
    );
    wrong(
        &direction_text("entry }\n"),
        22,
        7,
        "a set as {0 3} or a number",
        "`}`",
    );
    let text = direction_text("entry {0, 62}\nexit{}\n-4\ncut-short\n");
    assert_eq!(parse(&text).unwrap()[20..], [1 | 1 << 62, 0, -4]);
}

#[test]
fn a_text_ends_where_its_list_is_whole() {
    let short = "case\n1\n1\n";
    wrong(short, 4, 1, "arcs, or `cut-short`", "the end of the text");
    assert_eq!(
        parse(&format!("{short}cut-short # for a test\n")),
        Ok(vec![1, 1])
    );
    let after = format!("{short}cut-short\n0\n");
    wrong(&after, 5, 1, "nothing after `cut-short`", "`0`");
    let whole = "plan 0 nodes 0 arcs 0 stations\n1\n1\n";
    assert_eq!(parse(whole), Ok(vec![1, 1]));
    wrong(
        &format!("{whole}5\n"),
        4,
        1,
        "the end of the text, or `left-over`",
        "`5`",
    );
    assert_eq!(
        parse(&format!("{whole}left-over\n5\n6\n")),
        Ok(vec![1, 1, 5, 6])
    );
    wrong(
        &format!("{whole}left-over\np 5\n"),
        5,
        1,
        "a whole number",
        "`p`",
    );
    wrong(
        &format!("{whole}cut-short\n"),
        4,
        1,
        "`left-over`",
        "`cut-short`",
    );
}

#[test]
fn a_record_has_a_row_a_line() {
    let grams = "a whole number for grams of row 1, in decimal and of 64 bits";
    let row = |rest: &str| format!("meter\n3600 5\n{rest}\n");
    let end = "the end of the line";
    wrong(&row("time 7200 # 5\n\n9000 5"), 3, 10, grams, end);
    wrong(&row("7200\ngrams 5"), 3, 5, grams, end);
    wrong(&row("7200 5.0"), 3, 6, grams, "`5.0`");
    let expected = "the end of the line or a comment";
    wrong(&row("7200 5 6"), 3, 8, expected, "`6`");
    wrong(&row("7200 1,800"), 3, 7, expected, "`,`");
    wrong(&row("time"), 3, 5, "a whole number for time of row 1", end);
    let expected = "`grams` (grams of row 1) or its number alone";
    wrong(&row("time 7200 time 9000"), 3, 11, expected, "`time`");
    let expected = "`time` (time of row 1) or its number alone";
    wrong(&row("grams 5 time 7200"), 3, 1, expected, "`grams`");
    wrong("meter 2 rows\n", 1, 7, "the end of the line", "`2`");
}

#[test]
fn a_record_may_end_after_each_row() {
    assert_eq!(parse("meter # of no rows\n"), Ok(vec![]));
    assert_eq!(parse("meter\n3600 5\n7200 6\n"), Ok(vec![3600, 5, 7200, 6]));
    let cut = "meter\n3600 5\ntime 7200 # the rest is lost\n";
    assert_eq!(
        parse(&format!("{cut}\ncut-short\n")),
        Ok(vec![3600, 5, 7200])
    );
    let expected = "grams of row 1, or `cut-short`";
    wrong(cut, 4, 1, expected, "the end of the text");
    let after = format!("{cut}cut-short\n9000 5\n");
    wrong(&after, 5, 1, "nothing after `cut-short`", "`9000`");
    for word in ["cut-short", "left-over"] {
        let text = format!("meter\n3600 5\n{word}\n");
        wrong(&text, 3, 1, "`time` (time of row 1)", &format!("`{word}`"));
    }
}

#[test]
fn an_error_is_one_line_for_people() {
    let error = Error {
        line: 3,
        column: 1,
        expected: "`nodes`".to_string(),
        found: "`arcs`".to_string(),
    };
    assert_eq!(
        error.to_string(),
        "line 3, column 1: expected `nodes`, found `arcs`"
    );
}
