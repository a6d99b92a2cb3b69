//! The number that could not be read, with the byte at which that was seen.

use gasplan::NUMBER_BYTES;

/// A byte from here on says that another follows.
const MORE: u8 = 0x80;

/// What a refusal by 1 or 2 is about, or by 5 or 6.
pub struct Unread<'a> {
    /// Which number of the list it is.
    pub index: usize,
    /// The index of its first byte.
    pub first: usize,
    /// Its bytes before the one that is wrong.
    before: &'a [u8],
    /// None where the bytes end.
    wrong: Option<u8>,
}

impl Unread<'_> {
    /// The refusal's place is that of the wrong byte, or the count of bytes where they end. All numbers before are
    /// whole, and of a whole number the last byte alone is below 80: so the way back ends at the number's first byte.
    pub fn at(bytes: &[u8], place: usize) -> Unread<'_> {
        let before = bytes.get(..place).unwrap_or_default();
        let is_last = |byte: &u8| *byte < MORE;
        let first = before.iter().rposition(is_last).map_or(0, |at| at + 1);
        Unread {
            index: before.iter().filter(|byte| is_last(byte)).count(),
            first,
            before: &before[first..],
            wrong: bytes.get(place).copied(),
        }
    }

    /// Which of the questions 1 and 2 has a "no" here, and why.
    pub fn no(&self) -> Option<(i64, String)> {
        let follows = (1..NUMBER_BYTES).contains(&self.before.len());
        let is_tenth = self.before.len() + 1 == NUMBER_BYTES;
        match self.wrong {
            None if follows => Some((1, "each byte is 80 or more, so another is due".to_string())),
            Some(0) if follows => Some((
                2,
                "its last byte is 00, which a number does not need".to_string(),
            )),
            Some(byte @ 2..) if is_tenth => Some((
                2,
                format!("its tenth byte is {byte:02X}, and only 01 may stand there"),
            )),
            _ => None,
        }
    }

    /// The place in words.
    pub fn place(&self) -> String {
        let place = self.first + self.before.len();
        match self.wrong {
            Some(_) => format!("byte {place}"),
            None if place == 1 => "end after 1 byte".to_string(),
            None => format!("end after {place} bytes"),
        }
    }

    /// The number with its bytes, the wrong one in brackets, and why it is wrong. Words after its index may name its field.
    pub fn words(&self, field: &str) -> String {
        let mut bytes: Vec<String> = self.before.iter().map(|it| format!("{it:02X}")).collect();
        bytes.push(match self.wrong {
            Some(byte) => format!("[{byte:02X}]"),
            None => "[end]".to_string(),
        });
        let why = self
            .no()
            .map_or(String::new(), |(_, why)| format!(": {why}"));
        format!(
            "number {}{field}, from byte {} on, is {}{why}",
            self.index,
            self.first,
            bytes.join(" ")
        )
    }
}
