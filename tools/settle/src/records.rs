//! The two records: where they stand, and what they hold.

use std::path::{Path, PathBuf};

use explain::change::put;
use gasplan_text::files::{Content, Meter, difference, layout_of, read_bin, read_text};

use crate::request::Change;

/// Where the records are.
#[derive(Clone, Debug, PartialEq, Eq)]
pub enum Files {
    Folder(PathBuf),
    /// The sender's and the receiver's.
    Two(PathBuf, PathBuf),
}

/// A meter's record: a time and a mass to a row.
#[derive(Clone, Debug, PartialEq, Eq)]
pub struct Record {
    pub meter: Meter,
    /// The file that it was read from.
    pub path: PathBuf,
    pub list: Vec<i64>,
    /// What is not as the file has it, in the order of the changes.
    pub changed: Vec<Changed>,
}

/// A field with another number than it had.
#[derive(Clone, Debug, PartialEq, Eq)]
pub struct Changed {
    /// As `row 5 grams`.
    pub address: String,
    pub was: i64,
    pub is: i64,
}

#[derive(Clone, Debug, PartialEq, Eq)]
pub struct Records {
    pub sender: Record,
    pub receiver: Record,
}

type Result<T> = std::result::Result<T, String>;

impl Record {
    /// As `sender's record`.
    pub fn name(&self) -> String {
        format!("{}'s record", self.meter.name())
    }

    /// The file, and whether what is told of it is told of a changed copy.
    pub fn told(&self) -> String {
        let path = self.path.display();
        match self.changed.is_empty() {
            true => path.to_string(),
            false => format!("{path}, as changed"),
        }
    }

    /// The whole rows, each a time and a mass.
    pub fn rows(&self) -> impl Iterator<Item = (i64, i64)> {
        self.list.chunks_exact(2).map(|row| (row[0], row[1]))
    }

    /// A file that is named.
    fn of(meter: Meter, path: &Path) -> Result<Record> {
        let list = match path.extension().is_some_and(|it| it == "bin") {
            true => read_bin(path)?,
            false => read_text(path, Some(meter))?,
        };
        Ok(Record {
            meter,
            path: path.to_path_buf(),
            list,
            changed: Vec::new(),
        })
    }

    /// A folder's record. Nobody has said which file counts, so that two have to say the same.
    fn in_folder(meter: Meter, folder: &Path) -> Result<Record> {
        let name = meter.name();
        let [text, binary] = ["txt", "bin"].map(|end| folder.join(format!("{name}.{end}")));
        match (text.exists(), binary.exists()) {
            (true, false) => Record::of(meter, &text),
            (false, true) => Record::of(meter, &binary),
            (false, false) => Err(format!(
                "there is no {name}.txt and no {name}.bin in {}",
                folder.display()
            )),
            (true, true) => {
                let record = Record::of(meter, &text)?;
                let bytes = read_bin(&binary)?;
                match difference(Content::Meter, &[], &bytes, &record.list) {
                    None => Ok(record),
                    Some(how) => Err(format!(
                        "{}: {how}; name the two files that are to be settled",
                        binary.display()
                    )),
                }
            }
        }
    }
}

impl Records {
    pub fn read(files: &Files) -> Result<Records> {
        match files {
            Files::Folder(folder) if !folder.is_dir() => Err(format!(
                "{} is no folder; name one, or two records",
                folder.display()
            )),
            Files::Folder(folder) => Ok(Records {
                sender: Record::in_folder(Meter::Sender, folder)?,
                receiver: Record::in_folder(Meter::Receiver, folder)?,
            }),
            Files::Two(sender, receiver) => Ok(Records {
                sender: Record::of(Meter::Sender, sender)?,
                receiver: Record::of(Meter::Receiver, receiver)?,
            }),
        }
    }

    /// The sender's record first, as they are asked.
    pub fn both(&self) -> [&Record; 2] {
        [&self.sender, &self.receiver]
    }

    /// Makes the changes in turn; the files stay as they are.
    pub fn change(&mut self, changes: &[Change]) -> Result<()> {
        for change in changes {
            let record = match change.meter {
                Meter::Sender => &mut self.sender,
                Meter::Receiver => &mut self.receiver,
            };
            let (name, layout) = (record.name(), &mut *layout_of(Content::Meter, &[]));
            let (address, list) = (change.address.clone(), &mut record.list);
            let (was, is) = put(list, layout, &name, &address, &change.value)?;
            record.changed.push(Changed { address, was, is });
        }
        Ok(())
    }
}
