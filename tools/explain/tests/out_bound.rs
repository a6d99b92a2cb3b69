//! The out bound of 26: given by the arc, or 0 and so acthigh of the out end. Which of them holds is said.

mod common;

use common::{accepts, ask, says};

/// The compressors of `line` with an empty out bound.
const EMPTY: &str = "line --change case 'arc 0 out-bound' 0";

#[test]
fn a_given_bound_is_named() {
    let command = "line --all --change case 'arc 0 out-bound' 48000";
    says(
        command,
        &[
            "refused 26 1 0",
            "           p at the out end, node 3, = 50781, over the out bound 48000 by 2,781 mbar",
            "           p at the out end, node 2, = 48982, over the out bound 48000 by 982 mbar",
        ],
    );
    let text = ask(command).text;
    assert!(!text.contains("acthigh"), "{text}");
}

#[test]
fn an_empty_bound_is_acthigh_of_the_out_end() {
    let further = "    an out bound of 0 stands for acthigh of the out end, and the slack u- does not widen it";
    let forward = "step 2, 3600 s to 7200 s: p at the out end, node 3, = 51163, over its acthigh 51000 by 163 mbar";
    // the out end is `from`
    let backward = "step 5, 14400 s to 18000 s: p at the out end, node 2, = 48982, over its acthigh 48000 by 982 mbar";
    for (acthigh, verdict, over) in [
        ("'node 3 acthigh' 51000", "refused 26 2 0", forward),
        ("'node 2 acthigh' 48000", "refused 26 5 0", backward),
    ] {
        let line = format!("compressor 0 (node 2 to 3, station 0), {over} (the out bound is 0)");
        let command = format!("{EMPTY} --change case {acthigh}");
        says(&command, &[verdict, &line, further]);
    }
    // the highest that each is as out end
    accepts(&format!("{EMPTY} --change case 'node 3 acthigh' 51163"));
    accepts(&format!("{EMPTY} --change case 'node 2 acthigh' 49705"));
}

/// A combined arc regulates to above 50200 in steps 1 to 5, and compresses to above it in steps 10 to 18.
#[test]
fn an_empty_bound_is_asked_where_the_arc_compresses() {
    let command =
        "day --all --change case 'arc 12 out-bound' 0 --change case 'node 6 acthigh' 50200";
    says(
        command,
        &[
            "refused 26 10 12",
            "combined 12 (node 6 to 7, station 1), step 10, 32400 s to 36000 s: p at the out end, node 6, = 50432, \
             over its acthigh 50200 by 232 mbar (the out bound is 0)",
        ],
    );
    let text = ask(command).text;
    assert!(text.contains(": 9 (26: 9). "), "{text}");
}

/// At a sink with a demand 23 is met with slack, and 26 is not.
#[test]
fn slack_does_not_widen_an_empty_bound() {
    let sink = "--change case 'node 3 acthigh' 51000 --change case 'node 3 kind' sink \
                --change case 'node 3 demand 2' -1 --change plan 'step 2 node 3 d' -1";
    let with = |bound: i64, slack: i64| {
        let slack = format!("--change plan 'step 2 node 3 u-' {slack}");
        format!("line --change case 'arc 0 out-bound' {bound} {sink} {slack}")
    };
    let line = "compressor 0 (node 2 to 3, station 0), step 2, 3600 s to 7200 s: p at the out end, node 3, = 51163, \
                over its acthigh 51000 by 163 mbar (the out bound is 0)";
    says(&with(0, 162), &["refused 23 2 3"]);
    says(&with(0, 163), &["refused 26 2 0", line]);
    says(&with(0, 5_000), &["refused 26 2 0", line]);
    accepts(&with(200_000, 163));
}

#[test]
fn a_bound_written_out_stands_by_itself() {
    let with = |bound: i64| format!("empty-bound --change case 'arc 0 out-bound' {bound}");
    accepts(&with(200_000));
    accepts(&with(56_718));
    says(&with(56_717), &["refused 26 3 0"]);
    says(
        &with(56_000),
        &[
            "refused 26 3 0",
            "compressor 0 (node 1 to 2, station 0), step 3, 7200 s to 10800 s: p at the out end, node 2, = 56718, \
             over the out bound 56000 by 718 mbar",
        ],
    );
    says("empty-bound --all", &["refused 26 3 0"]);
    let text = ask("empty-bound --all").text;
    assert!(text.contains(": 1 (26: 1). "), "{text}");
}

#[test]
fn margins_say_which_bound_it_is() {
    let heading =
        "  26 p at the out end at most the out bound, or its acthigh where that is 0, compressing";
    says(
        "empty-bound --margins --change case 'node 2 acthigh' 56718",
        &[
            heading,
            "       compressor 0 (node 1 to 2, station 0), step 3: 0 mbar left \
             (p at the out end, node 2, = 56718, at most its acthigh 56718)",
        ],
    );
    says(
        "empty-bound --margins --change case 'arc 0 out-bound' 60000",
        &[
            heading,
            "       compressor 0 (node 1 to 2, station 0), step 3: 3,282 mbar left \
             (p at the out end, node 2, = 56718, at most the out bound 60000)",
        ],
    );
    says(
        &format!("{EMPTY} --margins --change case 'node 2 acthigh' 49800"),
        &[
            "       compressor 0 (node 2 to 3, station 0), step 6: 95 mbar left \
             (p at the out end, node 2, = 49705, at most its acthigh 49800)",
        ],
    );
}
