//! The files of a folder by their names, and what they hold.

use std::path::Path;

use gasplan::program;

/// One of the two files that are judged together.
#[derive(Clone, Copy, Debug, PartialEq, Eq)]
pub enum File {
    Case,
    Plan,
}

impl File {
    pub const BOTH: [File; 2] = [File::Case, File::Plan];

    pub fn name(self) -> &'static str {
        match self {
            File::Case => "case",
            File::Plan => "plan",
        }
    }

    /// The file that a refusal by its bytes is about: 1 to 3 are the case's, 5 to 7 the plan's.
    pub fn of_refusal(number: i64) -> File {
        match number > 4 {
            true => File::Plan,
            false => File::Case,
        }
    }

    /// The most bytes and the most numbers that the program takes.
    pub fn limits(self) -> (usize, usize) {
        match self {
            File::Case => (program::CASE_BYTES, program::CASE_NUMBERS),
            File::Plan => (program::PLAN_BYTES, program::PLAN_NUMBERS),
        }
    }
}

/// One of the two meters that are settled together. Its record has its name.
#[derive(Clone, Copy, Debug, PartialEq, Eq)]
pub enum Meter {
    Sender,
    Receiver,
}

impl Meter {
    pub const BOTH: [Meter; 2] = [Meter::Sender, Meter::Receiver];

    pub fn name(self) -> &'static str {
        match self {
            Meter::Sender => "sender",
            Meter::Receiver => "receiver",
        }
    }
}

/// What a list is, and what a text of it says with its first word.
#[derive(Clone, Copy, Debug, PartialEq, Eq)]
pub enum Content {
    Case,
    Plan,
    Meter,
}

impl Content {
    pub fn word(self) -> &'static str {
        match self {
            Content::Case => "case",
            Content::Plan => "plan",
            Content::Meter => "meter",
        }
    }

    /// By the file that a path is named for, as `somewhere/case.txt`.
    pub fn of_path(path: &Path) -> Option<Content> {
        let stem = path.file_stem()?;
        let file = File::BOTH.into_iter().find(|file| stem == file.name());
        let meter = Meter::BOTH.into_iter().find(|meter| stem == meter.name());
        file.map(Content::from).or(meter.map(Content::from))
    }
}

impl From<File> for Content {
    fn from(file: File) -> Content {
        match file {
            File::Case => Content::Case,
            File::Plan => Content::Plan,
        }
    }
}

impl From<Meter> for Content {
    fn from(_: Meter) -> Content {
        Content::Meter
    }
}
