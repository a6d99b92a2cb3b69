//! What the words after `settle` ask for.

use gasplan_text::files::Meter;
use gasplan_text::parse::decimal;

use crate::records::Files;

pub const USAGE: &str = "\
usage: settle SENDER RECEIVER --agreed GRAMS [WORDS]    two records: texts, or binary files where a name ends in .bin
       settle FOLDER --agreed GRAMS [WORDS]             sender and receiver of the folder, each .txt or .bin, or both if they say the same
  --agreed GRAMS                     where two masses of one time differ by at most this, the sender's stands; else the smaller
  --rows                             every row in order of time, with the way it was settled
  --change sender|receiver FIELD V   settle with another number in a field, as --change receiver 'row 5 grams' 1800000000
  -h, --help                         this page
The first line is the verdict of the proved library, and the status goes with it:
  settled TOTAL AGREED CUT ONLY-SENDER ONLY-RECEIVER    0    the total in g, and how many rows were settled in each way, a matched pair as one
  refused NUMBER STEP PLACE                             1    docs/RULES.md has each number in a sentence; the place is the row
  none                                                  2    words or files are of no use, or nothing can be written";

#[derive(Debug)]
pub struct Request {
    pub files: Files,
    pub agreed: i64,
    pub rows: bool,
    pub changes: Vec<Change>,
}

/// A field of a record, named as `row 5 grams`, gets another number.
#[derive(Debug)]
pub struct Change {
    pub meter: Meter,
    pub address: String,
    pub value: String,
}

impl Request {
    /// Files and options may stand in any order.
    pub fn of(words: &[String]) -> Result<Request, String> {
        let (mut paths, mut agreed) = (Vec::new(), None);
        let (mut rows, mut changes) = (false, Vec::new());
        let mut words = words.iter().map(String::as_str);
        while let Some(word) = words.next() {
            let mut own = || {
                let missing = || format!("words are missing after '{word}'");
                words.next().ok_or_else(missing)
            };
            match word {
                "--rows" => rows = true,
                "--agreed" if agreed.is_some() => return Err(format!("'{word}' is there twice")),
                "--agreed" => agreed = Some(grams(own()?)?),
                "--change" => changes.push(Change {
                    meter: meter(own()?)?,
                    address: own()?.to_string(),
                    value: own()?.to_string(),
                }),
                _ if word.starts_with('-') => return Err(format!("'{word}' is not known")),
                _ => paths.push(word),
            }
        }
        Ok(Request {
            files: files(&paths)?,
            agreed: agreed.ok_or("expected --agreed with the agreed grams")?,
            rows,
            changes,
        })
    }
}

fn files(paths: &[&str]) -> Result<Files, String> {
    match *paths {
        [folder] => Ok(Files::Folder(folder.into())),
        [sender, receiver] => Ok(Files::Two(sender.into(), receiver.into())),
        _ => Err("expected a folder, or the sender's record and the receiver's".to_string()),
    }
}

fn grams(word: &str) -> Result<i64, String> {
    let wrong =
        || format!("expected a whole number of grams, in decimal and of 64 bits, found '{word}'");
    decimal(word).ok_or_else(wrong)
}

fn meter(word: &str) -> Result<Meter, String> {
    let found = Meter::BOTH.into_iter().find(|meter| meter.name() == word);
    found.ok_or_else(|| format!("expected sender or receiver, found '{word}'"))
}
