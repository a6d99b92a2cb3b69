//! Buffers that are lent to a call, with a margin on either side that must stay as it is.

const MARGIN: usize = 4;

/// A buffer filled with a pattern, of which only the middle is lent.
#[derive(Clone, Debug, PartialEq, Eq)]
pub struct Lent<T> {
    buffer: Vec<T>,
}

/// A pattern that differs from place to place and from what answers look like.
pub trait Pattern: Copy {
    fn at(place: usize) -> Self;
}

impl Pattern for i64 {
    fn at(place: usize) -> Self {
        -0x5A5A_5A5A_0000_0000 - place as i64
    }
}

impl Pattern for u8 {
    fn at(place: usize) -> Self {
        (place % 251) as u8 ^ 0xA5
    }
}

impl<T: Pattern> Lent<T> {
    pub fn new(room: usize) -> Self {
        Lent {
            buffer: (0..room + 2 * MARGIN).map(T::at).collect(),
        }
    }

    /// The part that is lent.
    pub fn room(&mut self) -> &mut [T] {
        let end = self.buffer.len() - MARGIN;
        &mut self.buffer[MARGIN..end]
    }
}
