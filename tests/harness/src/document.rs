//! What the document itself lays down: table T, and the slips of earlier checkers.

use inputs::slips::{self, Input};
use inputs::table_t::{self, Row};

use crate::beside::{Beside, Difference, Reply};

/// Table T, row by row.
pub fn table_t(beside: &mut Beside) -> Result<(), Difference> {
    beside.input = "table T";
    for (number, row) in table_t::rows() {
        let (found, wanted) = run_row(beside, row)?;
        if found != wanted {
            let text = format!("row {number} of table T: {found}, and not {wanted}");
            return Err(Difference { text });
        }
    }
    Ok(())
}

/// What the row gives, and what it is to give.
fn run_row(beside: &mut Beside, row: Row) -> Result<(String, String), Difference> {
    Ok(match row {
        Row::Judge { case, plan, line } => (verdict(&beside.plan(&case, &plan)?), line.to_string()),
        Row::Ledger {
            case,
            plan,
            set,
            s,
            t,
            brought_in,
            residual,
        } => {
            let reply = beside.ledger([&case, &plan], set, s, t)?;
            let found = format!("{}: {} {}", reply.answer, reply.out[4], reply.out[5]);
            (found, format!("0: {brought_in} {residual}"))
        }
        Row::Bytes { list, bytes } => {
            beside.write(&list, bytes.len())?;
            let reply = beside.read(&bytes, list.len())?;
            let found = format!("{} {} {}", reply.answer, reply.out[0], hex(&list));
            (found, format!("0 {} {bytes:02X?}", list.len()))
        }
        Row::Unreadable {
            bytes,
            number,
            place,
        } => {
            let reply = beside.read(&bytes, bytes.len())?;
            (verdict(&reply), format!("refused {number} 0 {place}"))
        }
    })
}

/// The bytes that the second checker writes for the list.
fn hex(list: &[i64]) -> String {
    let mut bytes = vec![0; second::codec::length(list)];
    match second::codec::write(list, &mut bytes) {
        Ok(_) => format!("{bytes:02X?}"),
        Err(refusal) => refusal.to_string(),
    }
}

/// The program's line for a reply on two lists.
pub(crate) fn verdict(reply: &Reply) -> String {
    let words = |numbers: &[i64]| {
        let texts: Vec<String> = numbers.iter().map(i64::to_string).collect();
        texts.join(" ")
    };
    match reply.answer {
        0 => format!("accepted {}", words(&reply.out[..6])),
        number => format!("refused {number} {}", words(&reply.out[..2])),
    }
}

/// For each slip, an input that a checker with the slip answers otherwise.
pub fn slips(beside: &mut Beside) -> Result<(), Difference> {
    for slip in slips::slips() {
        beside.input = slip.name;
        let answer = answers(beside, &slip.input, slip.in_ledger)?;
        let with_slip = answers(beside, &slip.seen_as, slip.in_ledger)?;
        if answer == with_slip {
            let text = format!("{}: {answer:?} with the slip and without", slip.name);
            return Err(Difference { text });
        }
    }
    Ok(())
}

/// The verdict with its totals, or the gas figures of the ledger.
fn answers(beside: &mut Beside, input: &Input, in_ledger: bool) -> Result<Vec<i64>, Difference> {
    let plan = beside.plan(&input.case, &input.plan)?;
    let ledger = beside.ledger([&input.case, &input.plan], input.set, input.s, input.t)?;
    Ok(if in_ledger {
        ledger.out[2..4].to_vec()
    } else {
        [plan.answer].into_iter().chain(plan.out).collect()
    })
}
