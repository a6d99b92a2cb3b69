//! Table T and the slips, on the second checker alone.

use harness::{Beside, Judge, document};

#[test]
fn table_t_holds_row_by_row() {
    let result = document::table_t(&mut Beside::new(Judge::default()));
    assert!(result.is_ok(), "{result:?}");
}

#[test]
fn a_checker_with_a_slip_answers_otherwise() {
    let result = document::slips(&mut Beside::new(Judge::default()));
    assert!(result.is_ok(), "{result:?}");
}
