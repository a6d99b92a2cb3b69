//! How lines of text look, and how much room they take.

/// A line of text: its size in pixels, weight, anchor and colour.
#[derive(Clone, Copy)]
pub struct Font {
    pub size: u32,
    pub bold: bool,
    pub anchor: &'static str,
    pub fill: &'static str,
}

pub const PLAIN: Font = Font {
    size: 12,
    bold: false,
    anchor: "start",
    fill: "#222",
};

/// From one base line to the following one, as a share of the size.
const LINE: f64 = 1.25;
/// From the top of a line to its base, as a share of the size.
const ABOVE_BASE: f64 = 0.95;

impl Font {
    /// The width of a text. No font is given with the picture, so this is that of a wide one.
    pub fn width(&self, text: &str) -> f64 {
        let weight = if self.bold { 1.1 } else { 1.0 };
        let signs: f64 = text.chars().map(share).sum();
        weight * f64::from(self.size) * signs
    }

    /// The height of so many lines.
    pub fn height(&self, lines: usize) -> f64 {
        LINE * f64::from(self.size) * lines as f64
    }

    /// How far the base of a line, counted from 0, is below the top of the first.
    pub fn base(&self, line: usize) -> f64 {
        self.height(line) + ABOVE_BASE * f64::from(self.size)
    }

    /// A text in lines of at most this width, broken at spaces.
    pub fn wrapped(&self, text: &str, width: f64) -> Vec<String> {
        let mut lines = Vec::new();
        for part in text.lines() {
            let mut line = String::new();
            for word in part.split(' ') {
                let longer = format!("{line} {word}");
                if !line.is_empty() && self.width(&longer) > width {
                    lines.push(std::mem::take(&mut line));
                }
                if !line.is_empty() {
                    line.push(' ');
                }
                line.push_str(word);
            }
            lines.push(line);
        }
        lines
    }
}

/// The width of a sign as a share of the size.
fn share(sign: char) -> f64 {
    match sign {
        'i' | 'j' | 'l' | ' ' | ',' | '.' | ':' | '\'' => 0.34,
        'f' | 'r' | 't' | '-' | '(' | ')' => 0.42,
        'm' | 'w' | 'M' | 'W' | '→' => 0.97,
        _ => 0.64,
    }
}
