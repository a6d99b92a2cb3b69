//! Trial changes to the two files, kept in memory.

use gasplan::{read_all, write_all};
use gasplan_text::files::{File, layout_of};
use gasplan_text::layout::{Field, Layout, fields};
use gasplan_text::parse::value;

use crate::input::Input;

#[derive(Clone, Debug, PartialEq, Eq)]
pub enum Change {
    /// A field, named as `step 1 arc 0 b`, gets another number.
    Field {
        file: File,
        address: String,
        value: String,
    },
    /// Bytes are put at a file's end.
    Append { file: File, bytes: Vec<u8> },
}

/// The file that a word names.
pub fn file_of(word: &str) -> Result<File, String> {
    let found = File::BOTH.into_iter().find(|file| file.name() == word);
    found.ok_or_else(|| format!("expected case or plan, found '{word}'"))
}

/// Bytes in hexadecimal, each with a count if it comes more than once, as `80 00*12`.
pub fn bytes_of(text: &str) -> Result<Vec<u8>, String> {
    let mut bytes = Vec::new();
    for word in text.split_whitespace() {
        let (byte, count) = word.split_once('*').unwrap_or((word, "1"));
        let wrong = || format!("expected bytes as 80 or 00*12, found '{word}'");
        let byte = u8::from_str_radix(byte, 16).map_err(|_| wrong())?;
        let count: u16 = count.parse().map_err(|_| wrong())?;
        bytes.extend(vec![byte; usize::from(count)]);
    }
    Ok(bytes)
}

/// Makes the changes in turn.
pub fn apply(input: &mut Input, changes: &[Change]) -> Result<(), String> {
    for change in changes {
        match change {
            Change::Append { file, bytes } => input.bytes_mut(*file).extend(bytes),
            Change::Field {
                file,
                address,
                value,
            } => change_field(input, *file, address, value)?,
        }
    }
    Ok(())
}

fn change_field(input: &mut Input, file: File, address: &str, text: &str) -> Result<(), String> {
    let list_of = |file: File| {
        read_all(input.bytes(file))
            .map_err(|refusal| format!("no field of {} can be changed: {refusal}", file.name()))
    };
    let case = list_of(File::Case)?;
    let mut list = list_of(file)?;
    let layout = &mut *layout_of(file, &case);
    put(&mut list, layout, file.name(), address, text)?;
    *input.bytes_mut(file) = write_all(&list).map_err(|refusal| refusal.to_string())?;
    Ok(())
}

/// Puts another number into the field of this address; the name is the list's. Gives the number that stood there, and the new one.
pub fn put(
    list: &mut [i64],
    layout: &mut dyn Layout,
    name: &str,
    address: &str,
    text: &str,
) -> Result<(i64, i64), String> {
    let found = fields(layout, list);
    let is_it = |field: &Field| field.address() == address;
    let at = found.iter().position(is_it);
    let at = at.ok_or_else(|| format!("no field of the {name} is called '{address}'"))?;
    let new = value(&found[at], text).map_err(|error| {
        format!(
            "{address}: expected {}, found {}",
            error.expected, error.found
        )
    })?;
    Ok((std::mem::replace(&mut list[at], new), new))
}
