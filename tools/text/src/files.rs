//! Binary files and texts in a folder.

use std::fs;
use std::io;
use std::path::Path;

use gasplan::{Refusal, read_all, write_all};

use crate::layout::{CaseLayout, Counts, Layout, MeterLayout, PlanLayout, fields};
pub use crate::names::{Content, File, Meter};
use crate::replace::{New, replace};
use crate::unread::Unread;
use crate::{parse, parse_as, write};

/// Each error is one line for people, with the file's name.
pub type Result<T> = std::result::Result<T, String>;

/// An error of the system with the file's name.
pub fn told(path: &Path, error: io::Error) -> String {
    format!("{}: {error}", path.display())
}

/// The numbers of a binary file.
pub fn read_bin(path: &Path) -> Result<Vec<i64>> {
    let bytes = fs::read(path).map_err(|error| told(path, error))?;
    read_all(&bytes)
        .map_err(|refusal| format!("{}: {}", path.display(), unreadable(&bytes, refusal)))
}

/// Why bytes are no numbers. The question's number is left out: it is another in a plan, and nothing is judged here.
pub fn unreadable(bytes: &[u8], refusal: Refusal) -> String {
    let Refusal { number, place, .. } = refusal;
    if !matches!(number, 1 | 2) {
        return format!("cannot be read: no room for the number that begins at byte {place}");
    }
    let unread = Unread::at(bytes, place);
    format!("cannot be read, {}: {}", unread.place(), unread.words(""))
}

/// The numbers of a text file. Where it is known what the text is to hold, its first word has to say so.
pub fn read_text(path: &Path, content: Option<impl Into<Content>>) -> Result<Vec<i64>> {
    let text = fs::read_to_string(path).map_err(|error| told(path, error))?;
    let list = match content {
        Some(content) => parse_as(content, &text),
        None => parse(&text),
    };
    list.map_err(|error| format!("{}: {error}", path.display()))
}

pub fn bytes_of(list: &[i64]) -> Result<Vec<u8>> {
    write_all(list).map_err(|refusal| refusal.to_string())
}

/// One text into one binary file; gives a line on it. Both names may say what the text is to hold.
pub fn one_to_bin(text: &Path, binary: &Path) -> Result<String> {
    let list = read_text(text, Content::of_path(text))?;
    if let Some(content) = Content::of_path(binary) {
        read_text(text, Some(content))?;
    }
    let bytes = bytes_of(&list)?;
    let line = format!("{}: {}", binary.display(), sizes(&list, &bytes));
    let path = binary.to_path_buf();
    replace(&[New { path, bytes }])?;
    Ok(line)
}

fn sizes(list: &[i64], bytes: &[u8]) -> String {
    format!("{} numbers, {} bytes", list.len(), bytes.len())
}

/// case.txt, plan.txt and the meters' texts into binary files, all or, after an error, none; gives a line on each.
pub fn to_bin(folder: &Path) -> Result<Vec<String>> {
    let (mut done, mut files) = (Vec::new(), Vec::new());
    let cases = File::BOTH.map(|file| (file.name(), Content::from(file), Some(file.limits())));
    let meters = Meter::BOTH.map(|meter| (meter.name(), Content::from(meter), None));
    for (name, content, limits) in cases.into_iter().chain(meters) {
        let text = folder.join(format!("{name}.txt"));
        if !text.exists() {
            continue;
        }
        let list = read_text(&text, Some(content))?;
        let bytes = bytes_of(&list)?;
        let mut line = format!("{name}.bin: {}", sizes(&list, &bytes));
        let past = |(most_bytes, most_numbers): &(usize, usize)| {
            bytes.len() > *most_bytes || list.len() > *most_numbers
        };
        if let Some((most_bytes, most_numbers)) = limits.filter(past) {
            let limits = format!("{most_numbers} numbers and {most_bytes} bytes");
            line.push_str(&format!("; the program takes at most {limits}"));
        }
        done.push(line);
        let path = folder.join(format!("{name}.bin"));
        files.push(New { path, bytes });
    }
    if done.is_empty() {
        let folder = folder.display();
        return Err(format!(
            "no case.txt, plan.txt, sender.txt or receiver.txt in {folder}"
        ));
    }
    replace(&files)?;
    Ok(done)
}

/// Binary files into texts. A text that is there is kept: it may hold comments.
pub fn to_text(folder: &Path) -> Result<Vec<String>> {
    let mut texts = Vec::new();
    if case_is_due(folder, &["bin"]) {
        let case = read_bin(&folder.join("case.bin"))?;
        texts.push(("case.txt".to_string(), write::case(&case)));
        let plan = folder.join("plan.bin");
        if plan.exists() {
            let plan = write::plan(&read_bin(&plan)?, &case);
            texts.push(("plan.txt".to_string(), plan));
        }
    }
    for meter in meters(folder, &["bin"]) {
        let list = read_bin(&folder.join(format!("{meter}.bin")))?;
        texts.push((format!("{meter}.txt"), write::meter(&list)));
    }
    if let Some((name, _)) = texts.iter().find(|(name, _)| folder.join(name).exists()) {
        let name = folder.join(name);
        return Err(format!(
            "{} is there already: move it away first",
            name.display()
        ));
    }
    let line = |(name, text): &(String, String)| format!("{name}: {} lines", text.lines().count());
    let lines = texts.iter().map(line).collect();
    let new = |(name, text): (String, String)| New {
        path: folder.join(name),
        bytes: text.into_bytes(),
    };
    replace(&texts.into_iter().map(new).collect::<Vec<New>>())?;
    Ok(lines)
}

/// Are texts and binary files the same, and does each binary file survive the way through text?
pub fn check(folder: &Path) -> Result<Vec<String>> {
    let mut lists = Vec::new();
    if case_is_due(folder, &BOTH_FORMS) {
        let case = check_one(folder, "case", File::Case, None)?;
        let plan = check_one(folder, "plan", File::Plan, Some(&case))?;
        lists.extend([("case", case), ("plan", plan)]);
    }
    for meter in meters(folder, &BOTH_FORMS) {
        lists.push((meter, check_one(folder, meter, Content::Meter, None)?));
    }
    let line = |(name, list): &(&str, Vec<i64>)| {
        format!("{name}.txt and {name}.bin: the same {} numbers", list.len())
    };
    Ok(lists.iter().map(line).collect())
}

/// How the names of a text and a binary file end.
const BOTH_FORMS: [&str; 2] = ["txt", "bin"];

/// The meters that the folder has a file of.
fn meters(folder: &Path, ends: &[&str]) -> Vec<&'static str> {
    let mut names = Meter::BOTH.map(Meter::name).to_vec();
    names.retain(|name| is_there(folder, name, ends));
    names
}

/// Not in a folder that has files of meters alone.
fn case_is_due(folder: &Path, ends: &[&str]) -> bool {
    let there = |file: File| is_there(folder, file.name(), ends);
    File::BOTH.into_iter().any(there) || meters(folder, ends).is_empty()
}

fn is_there(folder: &Path, name: &str, ends: &[&str]) -> bool {
    let there = |end: &&str| folder.join(format!("{name}.{end}")).exists();
    ends.iter().any(there)
}

/// The case is that of a plan, and none of another file.
fn check_one(
    folder: &Path,
    name: &str,
    content: impl Into<Content>,
    case: Option<&[i64]>,
) -> Result<Vec<i64>> {
    let content = content.into();
    let binary = folder.join(format!("{name}.bin"));
    let list = read_bin(&binary)?;
    let case = case.unwrap_or(&list);
    let from_text = read_text(&folder.join(format!("{name}.txt")), Some(content))?;
    if let Some(difference) = difference(content, case, &list, &from_text) {
        return Err(format!("{}: {difference}", binary.display()));
    }
    let again = match content {
        Content::Case => write::case(&list),
        Content::Plan => write::plan(&list, case),
        Content::Meter => write::meter(&list),
    };
    let again = parse(&again).map_err(|error| format!("{}: {error}", binary.display()))?;
    let kept = fs::read(&binary).map_err(|error| told(&binary, error))?;
    match bytes_of(&again)? == kept {
        true => Ok(list),
        false => Err(format!(
            "{}: another file comes back from its text",
            binary.display()
        )),
    }
}

/// What stands where in a file. A plan's rows are as many as the case says.
pub fn layout_of(content: impl Into<Content>, case: &[i64]) -> Box<dyn Layout> {
    match content.into() {
        Content::Case => Box::<CaseLayout>::default(),
        Content::Plan => Box::new(PlanLayout::new(Counts::of_case(case))),
        Content::Meter => Box::<MeterLayout>::default(),
    }
}

/// Where a binary file and its text differ, in words; none where they are the same. A plan's fields
/// have their names by the case.
pub fn difference(
    content: impl Into<Content>,
    case: &[i64],
    binary: &[i64],
    text: &[i64],
) -> Option<String> {
    let places = 0..binary.len().max(text.len());
    let differ = |at: &usize| binary.get(*at) != text.get(*at);
    let at = places.clone().find(differ)?;
    let count = places.filter(differ).count();
    let longer = if binary.len() > at { binary } else { text };
    let names = fields(layout_of(content, case).as_mut(), longer);
    let field = names
        .get(at)
        .map_or(String::new(), |it| format!(" ({})", it.address()));
    let says = |list: &[i64]| list.get(at).map_or("missing".to_string(), i64::to_string);
    let (is, other) = (says(binary), says(text));
    let others = match count {
        1 => String::new(),
        _ => format!("; {count} numbers differ in all"),
    };
    Some(format!(
        "number {at}{field} is {is} in the bytes and {other} in the text{others}"
    ))
}
