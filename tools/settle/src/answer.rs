//! The whole answer to a request.

use explain::report::refused;
use gasplan::Settlement;

use crate::records::Records;
use crate::request::Request;
use crate::rows::{add_up, rows};
use crate::{questions, report, warnings};

#[derive(Debug)]
pub struct Answer {
    pub text: String,
    /// Lines for standard error.
    pub warnings: Vec<String>,
    pub settled: bool,
}

/// The library's verdict, and what is said of it; an error where the rows that are asked for do not add up to it.
pub fn answer(records: &Records, request: &Request) -> Result<Answer, String> {
    let [sender, receiver] = records.both().map(|record| record.list.as_slice());
    match gasplan::settle(sender, receiver, request.agreed) {
        Ok(figures) => settled(records, request, &figures),
        Err(refusal) => {
            let explanation = questions::explain(records, request.agreed, refusal);
            let (changes, words) = (report::changes(records), refused(&explanation));
            Ok(Answer {
                text: format!("{refusal}\n{changes}{words}{}\n", report::NOT_PROVED),
                warnings: warnings::of_files(records),
                settled: false,
            })
        }
    }
}

/// What is said of these figures.
pub fn settled(
    records: &Records,
    request: &Request,
    figures: &Settlement,
) -> Result<Answer, String> {
    let rows = match request.rows {
        true => {
            let rows = rows(records, request.agreed);
            add_up(&rows, figures)?;
            report::rows(&rows)
        }
        false => String::new(),
    };
    let changes = report::changes(records);
    let words = report::settled(records, request.agreed, figures);
    let of_rows = warnings::of_rows(records, figures);
    Ok(Answer {
        text: format!("{figures}\n{changes}{words}{rows}{}\n", report::NOT_PROVED),
        warnings: [warnings::of_files(records), of_rows].concat(),
        settled: true,
    })
}
