//! A text as lines of words, and a cursor that goes along a line.

use std::fmt;

/// Where a text is wrong, what was expected there and what was found. Both count from 1.
#[derive(Clone, Debug, PartialEq, Eq)]
pub struct Error {
    pub line: usize,
    pub column: usize,
    pub expected: String,
    pub found: String,
}

impl fmt::Display for Error {
    fn fmt(&self, f: &mut fmt::Formatter<'_>) -> fmt::Result {
        let Error {
            line,
            column,
            expected,
            found,
        } = self;
        write!(
            f,
            "line {line}, column {column}: expected {expected}, found {found}"
        )
    }
}

/// One line that holds more than a comment.
pub(crate) struct Line<'a> {
    number: usize,
    tokens: Vec<Token<'a>>,
    /// The column past its last token.
    end: usize,
}

#[derive(Clone, Copy)]
pub(crate) struct Token<'a> {
    column: usize,
    pub(crate) text: &'a str,
}

impl Line<'_> {
    pub(crate) fn of(number: usize, text: &str) -> Line<'_> {
        Line {
            number,
            tokens: tokens(text),
            end: code_of(text).trim_end().chars().count() + 1,
        }
    }
}

pub(crate) fn lines(text: &str) -> Vec<Line<'_>> {
    text.lines()
        .enumerate()
        .map(|(at, line)| Line::of(at + 1, line))
        .filter(|line| !line.tokens.is_empty())
        .collect()
}

/// What stands before the comment.
fn code_of(line: &str) -> &str {
    line.split('#').next().unwrap_or("")
}

/// Words, and the signs of a set each by itself.
fn tokens(line: &str) -> Vec<Token<'_>> {
    let code = code_of(line);
    let is_sign = |sign: char| matches!(sign, '{' | '}' | ',');
    let mut found = Vec::new();
    let mut start = None;
    for (column, (at, sign)) in code.char_indices().enumerate() {
        let ends = sign.is_whitespace() || is_sign(sign);
        if let (Some((column, from)), true) = (start, ends) {
            let text = &code[from..at];
            found.push(Token { column, text });
            start = None;
        }
        if is_sign(sign) {
            let text = &code[at..at + sign.len_utf8()];
            let column = column + 1;
            found.push(Token { column, text });
        } else if !ends && start.is_none() {
            start = Some((column + 1, at));
        }
    }
    if let Some((column, from)) = start {
        let text = &code[from..];
        found.push(Token { column, text });
    }
    found
}

/// A line's tokens, one after the other.
pub(crate) struct Cursor<'a> {
    line: &'a Line<'a>,
    at: usize,
}

impl<'a> Cursor<'a> {
    pub(crate) fn new(line: &'a Line<'a>) -> Self {
        Cursor { line, at: 0 }
    }

    pub(crate) fn peek(&self) -> Option<Token<'a>> {
        self.line.tokens.get(self.at).copied()
    }

    pub(crate) fn next(&mut self) -> Option<Token<'a>> {
        let token = self.peek();
        self.at += 1;
        token
    }

    /// An error at the token that comes.
    pub(crate) fn wrong(&self, expected: impl Into<String>) -> Error {
        let (column, found) = match self.peek() {
            Some(token) => (token.column, format!("`{}`", token.text)),
            None => (self.line.end, "the end of the line".to_string()),
        };
        Error {
            line: self.line.number,
            column,
            expected: expected.into(),
            found,
        }
    }

    pub(crate) fn word(&mut self, word: &str) -> Result<(), Error> {
        match self.peek() {
            Some(token) if token.text == word => {
                self.at += 1;
                Ok(())
            }
            _ => Err(self.wrong(format!("`{word}`"))),
        }
    }

    pub(crate) fn end(&self) -> Result<(), Error> {
        match self.peek() {
            None => Ok(()),
            Some(_) => Err(self.wrong("the end of the line or a comment")),
        }
    }
}
