//! The questions 1 and 2 of case bytes, and 5 and 6 of plan bytes. 3 and 7 are in `limits`.

use gasplan::{Refusal, read_all};
use gasplan_text::files::{File, layout_of};
use gasplan_text::layout::due_after;
use gasplan_text::unread::Unread;

use crate::check::{Check, check};
use crate::field_rules::field_noes;
use crate::input::Lists;

/// The place in words, and the number that could not be read with its wrong byte marked.
pub fn unread(bytes: &[u8], file: File, lists: &Lists, refusal: Refusal) -> (String, Vec<Check>) {
    let unread = Unread::at(bytes, refusal.place);
    let number = match file {
        File::Case => refusal.number,
        File::Plan => refusal.number - 4,
    };
    let is_no = unread.no().is_some_and(|(question, _)| question == number);
    let field = field_words(&bytes[..unread.first], file, lists);
    (unread.place(), vec![check(!is_no, unread.words(&field))])
}

/// The field that the number after these bytes was to be, where it is clear which one that is.
fn field_words(before: &[u8], file: File, lists: &Lists) -> String {
    let list = read_all(before).unwrap_or_default();
    if !is_clear(&list, file, lists) {
        return String::new();
    }
    let due = due_after(layout_of(file, &lists.case_list).as_mut(), &list);
    let field = due.map_or("past the last field".to_string(), |it| it.address());
    format!(" ({field})")
}

/// In a case, no number before may leave open which fields follow. The rows of a plan are those of its case: that has to be whole
/// and clear itself, and the plan to begin as 20 asks.
fn is_clear(list: &[i64], file: File, lists: &Lists) -> bool {
    match file {
        File::Case => !field_noes(list).leaves_open,
        File::Plan => lists.case.as_ref().is_some_and(|case| {
            let head = [1, case.steps() as i64];
            let begins = list.iter().zip(head).all(|(&number, due)| number == due);
            begins && !field_noes(&lists.case_list).leaves_open
        }),
    }
}
