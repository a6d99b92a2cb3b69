//! What the words after `explain` ask for.

use std::path::PathBuf;

use crate::change::{Change, bytes_of, file_of};
use crate::explanation::Region;
use crate::source::Files;

pub const USAGE: &str = "\
usage: explain FOLDER [WORDS]              case.bin and plan.bin of the folder
       explain CASE.bin PLAN.bin [WORDS]
  --all                        every question whose answer is \"no\", not the first alone
  --margins                    what an accepted plan leaves of every bound: the tightest items
  --ledger NODES S T           the ledger of a set of nodes, as 0,1,4 or all, from step S to step T
  --svg FILE                   draw the network and the balance of the ledger's set, else of all nodes
  --step T                     show the numbers of this step in the picture
  --text                       judge case.txt and plan.txt; a folder's bytes where it has no such text
  --change case|plan FIELD V   judge with another number in a field, as --change plan 'step 1 arc 0 b' 901
  --append case|plan BYTES     judge with more bytes at the end, as --append case '80 00*12'
  -h, --help                   this page
The first line is the verdict of the proved library. The status is 0 for accepted, 1 for refused, and 2 where
words or files are of no use, or nothing can be written.";

#[derive(Debug)]
pub struct Request {
    pub files: Files,
    /// Are the texts to be judged?
    pub text: bool,
    pub all: bool,
    pub margins: bool,
    pub ledger: Option<LedgerWords>,
    pub svg: Option<PathBuf>,
    pub step: Option<usize>,
    pub changes: Vec<Change>,
}

/// A region; all nodes have no set before the case is read.
#[derive(Clone, Copy, Debug)]
pub struct LedgerWords {
    set: Option<i64>,
    s: i64,
    t: i64,
}

impl LedgerWords {
    pub fn region(&self, nodes: usize) -> Region {
        Region {
            set: self.set.unwrap_or(all_nodes(nodes)),
            s: self.s,
            t: self.t,
        }
    }
}

/// The set of so many nodes.
pub fn all_nodes(nodes: usize) -> i64 {
    (1 << nodes.min(62)) - 1
}

impl Request {
    /// Files and options may stand in any order.
    pub fn of(words: &[String]) -> Result<Request, String> {
        let words: Vec<&str> = words.iter().map(String::as_str).collect();
        let mut request = Request {
            files: Files::Folder(PathBuf::new()),
            text: false,
            all: false,
            margins: false,
            ledger: None,
            svg: None,
            step: None,
            changes: Vec::new(),
        };
        let mut paths = Vec::new();
        let mut rest = words.as_slice();
        while let [first, after @ ..] = rest {
            rest = match first.starts_with('-') {
                true => request.take(first, after)?,
                false => {
                    paths.push(*first);
                    after
                }
            };
        }
        request.files = match paths.as_slice() {
            [folder] => Files::Folder(PathBuf::from(folder)),
            [case, plan] => Files::Two(PathBuf::from(case), PathBuf::from(plan)),
            _ => return Err("expected a folder, or a case file and a plan file".to_string()),
        };
        match (request.step, &request.svg) {
            (Some(_), None) => Err("--step is for the picture: say --svg FILE too".to_string()),
            _ => Ok(request),
        }
    }

    /// Takes one option with the words that belong to it and gives the words after them.
    fn take<'a, 'b>(
        &mut self,
        option: &str,
        words: &'a [&'b str],
    ) -> Result<&'a [&'b str], String> {
        let wanted = match option {
            "--all" | "--margins" | "--text" => 0,
            "--svg" | "--step" => 1,
            "--append" => 2,
            "--ledger" | "--change" => 3,
            _ => return Err(format!("'{option}' is not known")),
        };
        let Some((its_own, rest)) = words.split_at_checked(wanted) else {
            return Err(format!("words are missing after '{option}'"));
        };
        self.set(option, its_own)?;
        Ok(rest)
    }

    fn set(&mut self, option: &str, words: &[&str]) -> Result<(), String> {
        let twice = match option {
            "--ledger" => self.ledger.is_some(),
            "--svg" => self.svg.is_some(),
            "--step" => self.step.is_some(),
            _ => false,
        };
        if twice {
            return Err(format!("'{option}' is there twice"));
        }
        match (option, words) {
            ("--all", _) => self.all = true,
            ("--margins", _) => self.margins = true,
            ("--text", _) => self.text = true,
            ("--ledger", &[nodes, s, t]) => self.ledger = Some(ledger(nodes, s, t)?),
            ("--svg", &[file]) => self.svg = Some(PathBuf::from(file)),
            ("--step", &[step]) => self.step = Some(step_of(step)?),
            ("--change", &[file, address, value]) => self.changes.push(Change::Field {
                file: file_of(file)?,
                address: address.to_string(),
                value: value.to_string(),
            }),
            (_, words) => self.changes.push(Change::Append {
                file: file_of(words[0])?,
                bytes: bytes_of(words[1])?,
            }),
        }
        Ok(())
    }
}

fn ledger(nodes: &str, s: &str, t: &str) -> Result<LedgerWords, String> {
    Ok(LedgerWords {
        set: set_of(nodes)?,
        s: number(s)?,
        t: number(t)?,
    })
}

fn number(word: &str) -> Result<i64, String> {
    word.parse()
        .map_err(|_| format!("expected a whole number, found '{word}'"))
}

fn step_of(word: &str) -> Result<usize, String> {
    match word.parse() {
        Ok(step @ 1..) => Ok(step),
        _ => Err(format!("expected a step from 1 on, found '{word}'")),
    }
}

/// Nodes with commas between; none for `all`.
fn set_of(word: &str) -> Result<Option<i64>, String> {
    if word == "all" {
        return Ok(None);
    }
    let mut set = 0;
    for item in word.split(',').filter(|item| !item.is_empty()) {
        match item.parse() {
            Ok(node @ 0..=62) => set |= 1_i64 << node,
            _ => return Err(format!("expected nodes as 0,1,4 or all, found '{item}'")),
        }
    }
    Ok(Some(set))
}
