//! The answers on standard output, with the errors on standard error in their places.

use std::io::{self, IsTerminal};

use super::answers::{Answers, Style};
use super::json;
use super::progress::Progress;
use super::tally::Tally;
use crate::files::tell;
use crate::out::Out;

pub struct Report<'a> {
    style: Style,
    out: &'a mut Out,
    progress: Progress,
    /// Whether standard output is a terminal, on which the progress line may stand.
    terminal: bool,
    /// How many files there are in all.
    files: u64,
    tally: Tally,
    /// Whether a sheet was printed.
    begun: bool,
}

impl Report<'_> {
    pub fn new(style: Style, out: &mut Out, progress: Progress, files: u64) -> Report<'_> {
        if style.json {
            out.write(json::BEGIN.as_bytes());
        }
        Report {
            style,
            out,
            progress,
            terminal: io::stdout().is_terminal(),
            files,
            tally: Tally::default(),
            begun: false,
        }
    }

    /// Prints the answers to a run of files.
    pub fn add(&mut self, answers: &Answers) {
        for (text, error) in &answers.told {
            self.print(text);
            self.out.flush();
            self.progress.erase();
            tell(error);
        }
        self.print(&answers.text);
        self.tally.add(&answers.tally);
        let (done, files) = (self.tally.files(), self.files);
        if done < files {
            self.progress.show(|| format!("{done} of {files} files"));
        }
    }

    /// Prints the end, with a summary in words if one is wanted, and answers the exit status.
    pub fn end(mut self, summary: bool) -> u8 {
        self.progress.erase();
        if self.style.json {
            self.out.write(json::end(&self.tally).as_bytes());
        } else if summary && !self.style.quiet {
            let lines = self.tally.lines();
            lines.iter().for_each(|line| self.out.line(line));
        }
        self.tally.status()
    }

    fn print(&mut self, text: &str) {
        if text.is_empty() {
            return;
        }
        let text = match self.style.json && !self.begun {
            true => text.strip_prefix(json::BETWEEN).unwrap_or(text),
            false => text,
        };
        self.begun = true;
        if self.terminal {
            self.progress.erase();
        }
        self.out.write(text.as_bytes());
        if self.terminal {
            self.out.flush();
        }
    }
}
