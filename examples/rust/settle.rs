//! Settles the records of two meters, sender.bin and receiver.bin of a folder. The second word is the agreed figure, in grams.
//!
//!     cargo build --offline --release --quiet --manifest-path examples/rust/Cargo.toml --target-dir target/examples/rust --bin settle
//!     target/examples/rust/release/settle examples/meters 1800000
//!
//! The status is 0 for settled, 1 for refused and 2 where there is no verdict.

use std::path::Path;
use std::process::ExitCode;
use std::{env, fs};

use gasplan::{Refusal, Settlement, read_all, settle};

fn settle_bytes(sender: &[u8], receiver: &[u8], agreed: i64) -> Result<Settlement, Refusal> {
    settle(&read_all(sender)?, &read_all(receiver)?, agreed)
}

fn main() -> ExitCode {
    let words: Vec<String> = env::args().skip(1).collect();
    let [folder, agreed] = words.as_slice() else {
        eprintln!("usage: settle FOLDER GRAMS");
        return ExitCode::from(2);
    };
    let contents = |name| fs::read(Path::new(folder).join(name));
    // A record that is not there is not an empty one.
    let (sender, receiver) = match (contents("sender.bin"), contents("receiver.bin")) {
        (Ok(sender), Ok(receiver)) => (sender, receiver),
        (Err(error), _) | (_, Err(error)) => {
            eprintln!("{folder}: {error}");
            return ExitCode::from(2);
        }
    };
    let Ok(agreed) = agreed.parse() else {
        eprintln!("{agreed} is no whole number of 64 bits");
        return ExitCode::from(2);
    };
    match settle_bytes(&sender, &receiver, agreed) {
        Ok(settlement) => {
            println!("{settlement}");
            ExitCode::SUCCESS
        }
        Err(refusal) => {
            println!("{refusal}");
            ExitCode::from(1)
        }
    }
}
