//! The library as a judge: its calls have the same form as the second checker's.

use gasplan::calls;
use harness::Judge;
use harness::calls::PrintLine;

use crate::program::Program;

/// The library, and the program where it has been built.
pub fn judge() -> Judge {
    Judge {
        read: Some(Box::new(calls::read)),
        write: Some(Box::new(calls::write)),
        case: Some(Box::new(calls::case)),
        plan: Some(Box::new(calls::judge)),
        bytes: Some(Box::new(calls::judge_bytes)),
        ledger: Some(Box::new(calls::ledger)),
        settle: Some(Box::new(calls::settle)),
        line: Program::find().map(print_line),
    }
}

fn print_line(program: Program) -> PrintLine {
    Box::new(move |case, plan| program.line(case, plan))
}
