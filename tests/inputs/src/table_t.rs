//! Table T of the document, row by row.

/// What a row puts in, and what has to come out.
pub enum Row {
    Judge {
        case: Vec<i64>,
        plan: Vec<i64>,
        line: &'static str,
    },
    Ledger {
        case: Vec<i64>,
        plan: Vec<i64>,
        set: i64,
        s: i64,
        t: i64,
        brought_in: i128,
        residual: i128,
    },
    Bytes {
        list: Vec<i64>,
        bytes: Vec<u8>,
    },
    /// The number and the place of a refusal in reading, with step 0.
    Unreadable {
        bytes: Vec<u8>,
        number: u8,
        place: usize,
    },
}

/// The row's number in the table, and the row. Row 6 has two more, with another p0.
pub fn rows() -> Vec<(u8, Row)> {
    let loose = with_tolerances(60, 1);
    let mut rows = vec![
        (1, judge(&C, &P, "accepted 0 0 0 0 599988 611988")),
        (2, judge(&C, &with_b(901), "refused 28 1 0")),
        (
            3,
            judge(&loose, &with_b(901), "accepted 0 0 0 120 599988 611988"),
        ),
        (
            4,
            judge(&with_tolerances(59, 1), &with_b(901), "refused 28 1 0"),
        ),
        (5, row_5(loose.to_vec())),
    ];
    rows.extend(rows_6().map(|row| (6, row)));
    rows.extend([
        (7, bytes(&[-900], &[0x87, 0x0E])),
        (7, bytes(&[64], &[0x80, 0x01])),
        (8, unreadable(&[0x80], 1, 1)),
        (8, unreadable(&[0x80, 0x00], 2, 1)),
        (8, bytes(&[], &[])),
    ]);
    rows
}

fn judge(case: &[i64], plan: &[i64], line: &'static str) -> Row {
    Row::Judge {
        case: case.to_vec(),
        plan: plan.to_vec(),
        line,
    }
}

fn row_5(case: Vec<i64>) -> Row {
    Row::Ledger {
        case,
        plan: with_b(901).to_vec(),
        set: 1 << 1,
        s: 0,
        t: 1,
        brought_in: 60,
        residual: 60,
    }
}

/// The in end's 40,000 are its pressure in the plan (document 02, P1), so that another p0 changes nothing.
fn rows_6() -> [Row; 4] {
    let row = |p0: i64, out: i64, line| {
        let mut case = COMPRESSING;
        case[9] = p0;
        judge(&case, &compressing_to(out), line)
    };
    let [accepted, refused] = ["accepted 0 0 0 0 0 0", "refused 26 1 0"];
    [
        row(40_000, 60_000, accepted),
        row(40_000, 60_001, refused),
        row(30_000, 60_000, accepted),
        row(50_000, 60_001, refused),
    ]
}

fn bytes(list: &[i64], bytes: &[u8]) -> Row {
    Row::Bytes {
        list: list.to_vec(),
        bytes: bytes.to_vec(),
    }
}

fn unreadable(bytes: &[u8], number: u8, place: usize) -> Row {
    Row::Unreadable {
        bytes: bytes.to_vec(),
        number,
        place,
    }
}

/// Case C: a source, a sink and a pipe.
#[rustfmt::skip]
pub const C: [i64; 33] = [
    1, 2, 1, 0, 1, 0, 0,
    60,
    1, 50000, 40000, 60000, 45000, 55000, 1100,
    2, 49998, 40000, 60000, 45000, 55000, -900,
    2, 0, 1, 2000, 6, 1000, 1000, 0, 0, 0, 0,
];

/// Plan P.
#[rustfmt::skip]
pub const P: [i64; 18] = [
    1, 1,
    51000, 1100, 0, 0, 0, 0,
    50998, -900, 0, 0, 0, 0,
    1100, 900, 0, 0,
];

/// C with other tolerances.
pub fn with_tolerances(mass: i64, pressure: i64) -> [i64; 33] {
    let mut case = C;
    (case[5], case[6]) = (mass, pressure);
    case
}

/// P with another b of the pipe.
pub fn with_b(b: i64) -> [i64; 18] {
    let mut plan = P;
    plan[15] = b;
    plan
}

/// Row 6: two inner nodes and a compressor with the machines 1,200 and 1,300.
#[rustfmt::skip]
const COMPRESSING: [i64; 49] = [
    1, 2, 1, 1, 1, 0, 0,
    60,
    0, 40000, 0, 200000, 0, 200000, 0,
    0, 40000, 0, 200000, 0, 200000, 0,
    5, 0, 1, 0, 0, 0, 0, 1, 3, 2, 200000,
    1, 1, 2, 0, 0,
    0, 0, 0,
    1, 0, 0, 0,
    0, 1200,
    0, 1300,
];

#[rustfmt::skip]
fn compressing_to(out: i64) -> [i64; 20] {
    [
        1, 1,
        40000, 0, 0, 0, 0, 0,
        out, 0, 0, 0, 0, 0,
        0, 0, 1, 3,
        0, 0,
    ]
}
