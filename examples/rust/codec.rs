//! Numbers to bytes and back, and each refusal that can come.
//!
//!     cargo build --offline --release --quiet --manifest-path examples/rust/Cargo.toml --target-dir target/examples/rust --bin codec
//!     target/examples/rust/release/codec

use std::process::ExitCode;

use gasplan::{NUMBER_BYTES, Refusal};

/// Every list is lent for the time of a call; nothing is allocated.
fn there_and_back() -> Result<bool, Refusal> {
    let list = [-900, 64, i64::MIN, i64::MAX];
    let mut bytes = [0; 4 * NUMBER_BYTES];
    let length = gasplan::write(&list, &mut bytes)?;
    println!("write: {length} bytes, first {:02X?}", &bytes[..4]);

    let mut again = [0; 4];
    let count = gasplan::read(&bytes[..length], &mut again)?;
    println!("read: {count} numbers {again:?}");
    Ok(count == again.len() && again == list)
}

/// Numbers before the one that is refused are in the list; the rest of it is as it was. The place is that of the byte that is
/// missing (1) or wrong (2), or of the first byte of the number for which the list is full (3).
fn refusals() -> bool {
    let (mut list, mut room, mut byte) = ([7; 2], [7; 1], [0xAA; 1]);
    let answers = [
        ("bytes end early", gasplan::read(&[0x02, 0x80], &mut list)),
        ("a last byte 00", gasplan::read(&[2, 0x80, 0], &mut list)),
        ("one place for two", gasplan::read(&[2, 4], &mut room)),
        ("one byte for two", gasplan::write(&[-900], &mut byte)),
    ];
    for (what, answer) in answers {
        println!("{what}: {answer:?}");
    }
    let found =
        answers.map(|(_, answer)| answer.map_err(|refusal| (refusal.number, refusal.place)));
    let expected = [(1, 2), (2, 2), (3, 1), (4, 0)].map(Err);
    found == expected && (list, room, byte) == ([1, 7], [1], [0xAA])
}

fn main() -> ExitCode {
    let as_said = there_and_back() == Ok(true) && refusals();
    ExitCode::from(u8::from(!as_said))
}
