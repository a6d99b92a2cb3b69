//! What `include/gasplan.h` defines.

use crate::signatures::{Signatures, of_c};
use crate::source;

pub struct Header {
    text: String,
}

impl Header {
    /// # Panics
    /// If it cannot be read.
    pub fn read() -> Header {
        Header {
            text: source("include/gasplan.h"),
        }
    }

    /// The text behind `#define NAME`.
    ///
    /// # Panics
    /// If it is not defined once.
    pub fn text(&self, name: &str) -> &str {
        let behind = |line| str::strip_prefix(line, "#define ")?.split_once(' ');
        let found = self.text.lines().filter_map(behind);
        let mut found = found.filter(|(defined, _)| *defined == name);
        let (_, value) = found.next().unwrap_or_else(|| panic!("no {name}"));
        assert!(found.next().is_none(), "{name} is defined twice");
        value
    }

    /// The number behind `#define NAME`.
    ///
    /// # Panics
    /// If it is no number.
    pub fn number(&self, name: &str) -> usize {
        let text = self.text(name);
        text.parse().unwrap_or_else(|_| panic!("{name}: {text}"))
    }

    /// The refusals in their order: name, number and the comment behind.
    ///
    /// # Panics
    /// If an entry has another form.
    pub fn refusals(&self) -> Vec<(&str, u64, &str)> {
        let (_, body) = self
            .text
            .split_once("enum gasplan_refusal {")
            .expect("the enum");
        let (body, _) = body.split_once("};").expect("its end");
        let entry = |text| {
            let (name, rest) = str::split_once(text, " = ").expect(text);
            let (number, rest) = rest.split_once("/*").expect(text);
            let (comment, _) = rest.split_once("*/").expect(text);
            let number = number.trim().trim_end_matches(',');
            (name, number.parse().expect(text), comment.trim())
        };
        body.split("GASPLAN_").skip(1).map(entry).collect()
    }

    /// The functions.
    pub fn functions(&self) -> Signatures {
        of_c(&self.text)
    }
}
