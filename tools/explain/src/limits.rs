//! What the program would print where its limits make a difference.

use gasplan::program::{self, Verdict};
use gasplan::{Answer, Refusal, Totals, read_all};
use gasplan_text::files::File;
use gasplan_text::words::grouped;

use crate::input::Input;
use crate::rules::rule_of;

/// A line on the program's own verdict, where it is another than the library's.
pub fn note(input: &Input, verdict: &Answer<Totals>) -> Option<String> {
    let printed = program::verdict(&input.case_bytes, &input.plan_bytes);
    let why = match printed {
        Verdict::Judged(judged) if judged == *verdict => return None,
        Verdict::Judged(Err(refusal)) => no_place(input, refusal),
        _ => too_long(input),
    };
    Some(format!("The program would print `{printed}`{why}."))
}

fn too_long(input: &Input) -> String {
    let one = |file: File| {
        let (bytes, most) = (input.bytes(file).len(), file.limits().0);
        let name = file.name();
        (bytes > most).then(|| {
            format!(
                "{} bytes of {name}, and there are {}",
                count(most),
                count(bytes)
            )
        })
    };
    let files: Vec<String> = File::BOTH.into_iter().filter_map(one).collect();
    format!(
        " and judge nothing: it takes at most {}",
        files.join("; and ")
    )
}

/// 3 and 7.
fn no_place(input: &Input, refusal: Refusal) -> String {
    let number = refusal.number;
    let file = File::of_refusal(number);
    let (name, most) = (file.name(), count(file.limits().1));
    let numbers = read_all(input.bytes(file)).map(|list| list.len());
    let there = numbers.map_or("more".to_string(), count);
    let title = rule_of(number).map_or("", |rule| rule.title);
    format!(
        " (rule {number}, {title}): it takes at most {most} numbers of {name}, and there are {there}"
    )
}

fn count(number: usize) -> String {
    grouped(number as i128)
}
