//! A line on a terminal that says how far the work is.

use std::io::{self, IsTerminal, Write};
use std::time::{Duration, Instant};

/// Work that is done sooner shows no line.
const FIRST: Duration = Duration::from_millis(300);
const NEXT: Duration = Duration::from_millis(100);

pub struct Progress {
    /// When the line may be written next; none if standard error is no terminal.
    due: Option<Instant>,
    /// How many columns of the terminal the line has now.
    width: usize,
}

impl Progress {
    pub fn new() -> Progress {
        let terminal = io::stderr().is_terminal();
        Progress {
            due: terminal.then(|| Instant::now() + FIRST),
            width: 0,
        }
    }

    /// Writes the line in place of the last one, if it is time.
    pub fn show(&mut self, line: impl FnOnce() -> String) {
        let Some(due) = self.due else {
            return;
        };
        let now = Instant::now();
        if now >= due {
            self.put(&line());
            self.due = Some(now + NEXT);
        }
    }

    /// Takes the line away, so that something else can be printed there.
    pub fn erase(&mut self) {
        if self.width > 0 {
            self.put("");
            let _ = io::stderr().write_all(b"\r");
        }
    }

    /// Where writing fails there is nobody to show it to.
    fn put(&mut self, line: &str) {
        let width = self.width;
        let text = format!("\r{line:<width$}");
        let _ = io::stderr().write_all(text.as_bytes());
        self.width = line.len();
    }
}
