//! A bar on a terminal: how far it is, and how many are not accepted.

use std::io::Write;
use std::time::{Duration, Instant};

const WIDTH: usize = 20;
const EVERY: Duration = Duration::from_millis(100);

pub struct Progress<W> {
    /// The terminal, if there is one. What goes wrong with it is let pass: the verdicts are elsewhere.
    terminal: Option<W>,
    total: usize,
    done: usize,
    not_accepted: usize,
    drawn: Option<Instant>,
    /// How many signs stand in the terminal's line.
    standing: usize,
}

impl<W: Write> Progress<W> {
    pub fn new(terminal: Option<W>, total: usize) -> Self {
        Progress {
            terminal,
            total,
            done: 0,
            not_accepted: 0,
            drawn: None,
            standing: 0,
        }
    }

    /// Counts, and draws now and then.
    pub fn count(&mut self, done: usize, not_accepted: usize) {
        self.done += done;
        self.not_accepted += not_accepted;
        if self.drawn.is_none_or(|drawn| drawn.elapsed() >= EVERY) {
            self.draw();
        }
    }

    /// Takes the bar away, so that lines can be written in its place; the next count draws it again.
    pub fn clear(&mut self) {
        if self.standing > 0 {
            let blank = format!("\r{:1$}\r", "", self.standing);
            self.show(&blank);
            (self.standing, self.drawn) = (0, None);
        }
    }

    /// Draws for the last time.
    pub fn end(&mut self) {
        self.draw();
        self.show("\n");
    }

    fn draw(&mut self) {
        let full = WIDTH * self.done / self.total.max(1);
        let bar = "#".repeat(full) + &".".repeat(WIDTH - full);
        let (done, total, not_accepted) = (self.done, self.total, self.not_accepted);
        let line = format!("[{bar}] {done} of {total}, {not_accepted} not accepted");
        self.show(&format!("\r{line}"));
        (self.standing, self.drawn) = (line.len(), Some(Instant::now()));
    }

    fn show(&mut self, text: &str) {
        if let Some(terminal) = &mut self.terminal {
            let _ = terminal
                .write_all(text.as_bytes())
                .and_then(|()| terminal.flush());
        }
    }
}

#[cfg(test)]
mod tests {
    use super::*;

    #[test]
    fn the_bar_grows_is_cleared_and_ends() {
        let mut shown = Vec::new();
        let mut progress = Progress::new(Some(&mut shown), 40);
        progress.count(10, 1);
        progress.count(10, 0); // too soon to be drawn
        progress.clear();
        progress.count(20, 2);
        progress.end();
        let first = "[#####...............] 10 of 40, 1 not accepted";
        let last = "[####################] 40 of 40, 3 not accepted";
        let blank = " ".repeat(first.len());
        let expected = format!("\r{first}\r{blank}\r\r{last}\r{last}\n");
        assert_eq!(String::from_utf8(shown).unwrap(), expected);
    }

    #[test]
    fn without_a_terminal_nothing_is_shown() {
        let mut progress = Progress::new(None::<Vec<u8>>, 1);
        progress.count(1, 0);
        progress.clear();
        progress.end();
        assert_eq!(progress.terminal, None);
        assert_eq!(progress.done, 1);
    }
}
