//! Text into a list.

pub use crate::cursor::Error;
use crate::cursor::{Cursor, Line, lines};
use crate::layout::{
    CaseLayout, Counts, Field, Form, Layout, MeterLayout, NoParts, Part, PlanLayout,
};
use crate::names::Content;
use crate::words::words;

/// Ends a text whose list stops before it is whole.
pub const CUT_SHORT: &str = "cut-short";
/// Stands before numbers that no field is due for.
pub const LEFT_OVER: &str = "left-over";

/// Sets hold the items 0 to 62, the bits of a number that is not negative.
const LAST_ITEM: i64 = 62;

/// What the first word of a text may be.
const ANY: [&str; 4] = ["case", "plan", "meter", "numbers"];

/// Gives the list that a text stands for.
pub fn parse(text: &str) -> Result<Vec<i64>, Error> {
    read(text, &ANY)
}

/// Gives the list of a text that has to hold this, or numbers without names.
pub fn parse_as(content: impl Into<Content>, text: &str) -> Result<Vec<i64>, Error> {
    read(text, &[content.into().word(), "numbers"])
}

fn read(text: &str, first_words: &[&str]) -> Result<Vec<i64>, Error> {
    // Some editors put a mark before the first word, which is not seen.
    let text = text.strip_prefix('\u{feff}').unwrap_or(text);
    let lines = lines(text);
    let end = text.lines().count() + 1;
    let Some((first, rest)) = lines.split_first() else {
        return Err(ended(end, &one_of(first_words)));
    };
    let mut reader = Reader::of(first, first_words)?;
    for line in rest {
        reader.take(line)?;
    }
    reader.finish(end)
}

/// As `case`, `plan` or `numbers`.
fn one_of(words: &[&str]) -> String {
    let quoted: Vec<String> = words.iter().map(|word| format!("`{word}`")).collect();
    match quoted.split_last() {
        Some((last, before)) => format!("{} or {last}", before.join(", ")),
        None => String::new(),
    }
}

/// The number that a text gives for one field: a number, a word or a set.
pub fn value(due: &Field, text: &str) -> Result<i64, Error> {
    let line = Line::of(1, text);
    let mut cursor = Cursor::new(&line);
    let number = value_of(&mut cursor, due)?;
    cursor.end()?;
    Ok(number)
}

fn ended(line: usize, expected: &str) -> Error {
    Error {
        line,
        column: 1,
        expected: expected.to_string(),
        found: "the end of the text".to_string(),
    }
}

/// `2 nodes 1 arcs 0 stations`, the rows of each step.
fn counts(cursor: &mut Cursor) -> Result<Counts, Error> {
    let nodes = count(cursor, "nodes")?;
    let arcs = count(cursor, "arcs")?;
    let stations = count(cursor, "stations")?;
    Ok(Counts {
        nodes,
        arcs,
        stations,
    })
}

fn count(cursor: &mut Cursor, of: &str) -> Result<usize, Error> {
    let wrong = cursor.wrong(format!("the count of {of}"));
    let number = cursor.next().and_then(|token| decimal(token.text));
    let count = number.and_then(|number| usize::try_from(number).ok());
    let count = count.ok_or(wrong)?;
    cursor.word(of)?;
    Ok(count)
}

/// Which lines may come.
enum Place {
    Fields,
    /// Numbers alone: after `left-over`, and in a text of numbers.
    Numbers,
    /// After `cut-short`: nothing.
    CutShort,
}

struct Reader {
    layout: Box<dyn Layout>,
    list: Vec<i64>,
    place: Place,
    /// What is wrong with a line that has a part of its row alone, unless the list is cut short there.
    open: Option<Error>,
}

impl Reader {
    /// By the first line, which says what the text holds.
    fn of(line: &Line, first_words: &[&str]) -> Result<Reader, Error> {
        let mut cursor = Cursor::new(line);
        let wrong = cursor.wrong(one_of(first_words));
        let first = cursor.next().map(|it| it.text);
        let first = first.filter(|word| first_words.contains(word));
        let (layout, place): (Box<dyn Layout>, Place) = match first {
            Some("case") => (Box::<CaseLayout>::default(), Place::Fields),
            Some("plan") => {
                let counts = counts(&mut cursor)?;
                (Box::new(PlanLayout::new(counts)), Place::Fields)
            }
            Some("meter") => (Box::<MeterLayout>::default(), Place::Fields),
            Some("numbers") => (Box::new(NoParts), Place::Numbers),
            _ => return Err(wrong),
        };
        cursor.end()?;
        Ok(Reader {
            layout,
            list: Vec::new(),
            place,
            open: None,
        })
    }

    fn take(&mut self, line: &Line) -> Result<(), Error> {
        let mut cursor = Cursor::new(line);
        let first = cursor.peek().map_or("", |token| token.text);
        match (&self.place, self.layout.due()) {
            (Place::CutShort, _) => {
                return Err(cursor.wrong(format!("nothing after `{CUT_SHORT}`")));
            }
            (Place::Numbers, _) => self.list.push(number(&mut cursor, "a whole number")?),
            (Place::Fields, Some(_)) if first == CUT_SHORT && !self.layout.may_end() => {
                cursor.next();
                self.place = Place::CutShort;
            }
            (Place::Fields, Some(due)) => self.fields(&mut cursor, &due)?,
            (Place::Fields, None) if first == LEFT_OVER => {
                cursor.next();
                self.place = Place::Numbers;
            }
            (Place::Fields, None) => {
                let expected = format!("the end of the text, or `{LEFT_OVER}` before more numbers");
                return Err(cursor.wrong(expected));
            }
        }
        cursor.end()
    }

    /// The field that is due; of a record with the others of its row.
    fn fields(&mut self, cursor: &mut Cursor, due: &Field) -> Result<(), Error> {
        if let Some(error) = self.open.take() {
            return Err(error);
        }
        let number = field(cursor, due)?;
        self.layout.take(number);
        self.list.push(number);
        let in_row = |next: &Field| matches!(next.part, Part::Row(_)) && next.part == due.part;
        match self.layout.due().filter(in_row) {
            Some(next) if cursor.peek().is_none() => self.open = field(cursor, &next).err(),
            Some(next) => self.fields(cursor, &next)?,
            None => {}
        }
        Ok(())
    }

    fn finish(self, end: usize) -> Result<Vec<i64>, Error> {
        match (self.place, self.layout.due()) {
            (Place::Fields, Some(due)) if !self.layout.may_end() => {
                let expected = format!("{due}, or `{CUT_SHORT}` if the list is to end here");
                Err(ended(end, &expected))
            }
            _ => Ok(self.list),
        }
    }
}

/// A number, or the due field's name and its number.
fn field(cursor: &mut Cursor, due: &Field) -> Result<i64, Error> {
    let named = cursor
        .peek()
        .is_some_and(|token| token.text.starts_with(char::is_alphabetic));
    if named {
        let name = format!("`{}` ({due}) or its number alone", due.name);
        if cursor.peek().is_none_or(|token| token.text != due.name) {
            return Err(cursor.wrong(name));
        }
        cursor.next();
    }
    value_of(cursor, due)
}

fn value_of(cursor: &mut Cursor, due: &Field) -> Result<i64, Error> {
    match due.form {
        Form::Number => number(cursor, &format!("a whole number for {due}")),
        Form::Set => set(cursor, due),
        Form::NodeKind | Form::ArcKind => kind(cursor, due),
    }
}

fn number(cursor: &mut Cursor, expected: &str) -> Result<i64, Error> {
    let wrong = cursor.wrong(format!("{expected}, in decimal and of 64 bits"));
    let number = cursor.next().and_then(|token| decimal(token.text));
    number.ok_or(wrong)
}

/// Digits, after a minus sign if negative.
pub fn decimal(text: &str) -> Option<i64> {
    let digits = text.strip_prefix('-').unwrap_or(text);
    let decimal = !digits.is_empty() && digits.bytes().all(|byte| byte.is_ascii_digit());
    decimal.then(|| text.parse().ok()).flatten()
}

fn kind(cursor: &mut Cursor, due: &Field) -> Result<i64, Error> {
    let words = words(due.form);
    let wrong = cursor.wrong(format!("{} or a number for {due}", words.join(", ")));
    let text = cursor.next().map_or("", |token| token.text);
    let at = words.iter().position(|word| *word == text);
    at.map(|at| at as i64)
        .or_else(|| decimal(text))
        .ok_or(wrong)
}

/// A number, or items within braces.
fn set(cursor: &mut Cursor, due: &Field) -> Result<i64, Error> {
    if cursor.peek().is_none_or(|token| token.text != "{") {
        return number(cursor, &format!("a set as {{0 3}} or a number for {due}"));
    }
    cursor.next();
    let mut set: i64 = 0;
    loop {
        match cursor.peek().map(|token| token.text) {
            Some("}") => break,
            Some(",") => {}
            _ => set |= item(cursor, set)?,
        }
        cursor.next();
    }
    cursor.next();
    Ok(set)
}

/// The bit of the item that comes.
fn item(cursor: &Cursor, set: i64) -> Result<i64, Error> {
    let item = cursor.peek().and_then(|token| decimal(token.text));
    let item = item.filter(|item| (0..=LAST_ITEM).contains(item));
    match item.map(|item| 1_i64 << item) {
        Some(bit) if set & bit == 0 => Ok(bit),
        Some(_) => Err(cursor.wrong("each item of a set once")),
        None => Err(cursor.wrong(format!("an item 0 to {LAST_ITEM} or `}}`"))),
    }
}
