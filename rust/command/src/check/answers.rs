//! The verdicts on a run of files, and their lines.

use std::fs::File;
use std::io::{self, ErrorKind, Read};
use std::path::Path;

use homvaits::Refusal;

use super::json;
use super::tally::Tally;
use super::walk::Found;
use crate::files::{shown, words};
use crate::list::FRONT;
use crate::loads::loads;
use crate::wording;

/// How the answers are given.
#[derive(Clone, Copy)]
pub struct Style {
    pub quiet: bool,
    pub json: bool,
}

/// What is said of a file.
pub enum Verdict<'a> {
    Accepted(&'a [u8]),
    Refused(Refusal, &'a [u8]),
    NotRead(Box<str>),
}

/// The answers to a run of files.
#[derive(Default)]
pub struct Answers {
    /// Text for standard output, and an error that is told behind it.
    pub told: Vec<(String, String)>,
    /// The text behind the last error.
    pub text: String,
    pub tally: Tally,
}

impl Answers {
    pub fn to(files: &[Found], style: Style) -> Answers {
        let mut answers = Answers::default();
        let mut room = [0; FRONT];
        for file in files {
            let verdict = verdict(file, &mut room);
            answers.add(&file.path, &verdict, style);
        }
        answers
    }

    fn add(&mut self, path: &Path, verdict: &Verdict, style: Style) {
        match verdict {
            Verdict::Accepted(..) => self.tally.accepted += 1,
            Verdict::Refused(refusal, _) => self.tally.refuse(refusal.word),
            Verdict::NotRead(_) => self.tally.not_read += 1,
        }
        let silent = style.quiet && matches!(verdict, Verdict::Accepted(..));
        match (silent, style.json) {
            (true, _) => {}
            (false, true) => json::add_sheet(&mut self.text, path, verdict),
            (false, false) => add_line(&mut self.text, path, verdict),
        }
        if let Verdict::NotRead(why) = verdict {
            let error = format!("homvaits check: {}: {why}", shown(path.as_os_str()));
            self.told.push((std::mem::take(&mut self.text), error));
        }
    }
}

fn verdict<'a>(file: &Found, room: &'a mut [u8; FRONT]) -> Verdict<'a> {
    if let Some(error) = &file.error {
        return Verdict::NotRead(error.clone());
    }
    let bytes = match read(&file.path, room) {
        Ok(length) => room.get(..length).unwrap_or_default(),
        Err(error) => return Verdict::NotRead(words(&error).into()),
    };
    match homvaits::check(bytes) {
        Ok(_) => Verdict::Accepted(bytes),
        Err(refusal) => Verdict::Refused(refusal, bytes),
    }
}

/// Reads as much as there is room for, and answers how many bytes it was. `-` is standard input.
fn read(path: &Path, room: &mut [u8]) -> io::Result<usize> {
    match path.as_os_str() == "-" {
        true => read_all(io::stdin().lock(), room),
        false => read_all(File::open(path)?, room),
    }
}

fn read_all(mut from: impl Read, room: &mut [u8]) -> io::Result<usize> {
    let mut length = 0;
    while let Some(rest @ [_, ..]) = room.get_mut(length..) {
        match from.read(rest) {
            Ok(0) => break,
            Ok(count) => length += count,
            Err(error) if error.kind() == ErrorKind::Interrupted => {}
            Err(error) => return Err(error),
        }
    }
    Ok(length)
}

/// Adds the line of a sheet. What could not be read has none.
fn add_line(text: &mut String, path: &Path, verdict: &Verdict) {
    let verdict = match verdict {
        Verdict::Accepted(bytes) => wording::accepted(bytes, &loads(bytes)),
        Verdict::Refused(refusal, bytes) => wording::refused(*refusal, bytes),
        Verdict::NotRead(_) => return,
    };
    for part in [&shown(path.as_os_str()), ": ", &verdict, "\n"] {
        text.push_str(part);
    }
}

#[cfg(test)]
mod tests {
    use super::super::scratch::{Scratch, TWO_TASKS};
    use super::*;

    const WORDS: Style = Style {
        quiet: false,
        json: false,
    };

    fn answers(bytes: &[u8]) -> Answers {
        let folder = Scratch::new();
        let path = folder.file("sheet", bytes);
        let mut answers = Answers::to(&[Found { path, error: None }], WORDS);
        let path = format!("{}/", folder.path().display());
        answers.text = answers.text.replace(&path, "");
        answers
    }

    #[test]
    fn a_sheet_has_its_line() {
        let line = |bytes: &[u8]| answers(bytes).text;
        let mut sheet = TWO_TASKS;
        assert_eq!(
            line(&sheet),
            "sheet: accepted: version 1, 2 tasks on 1 core, load 1000\n"
        );
        sheet[20] = 8;
        assert_eq!(
            line(&sheet),
            "sheet: refused 14 (Overload) at core 0: the core has more work than time\n"
        );
        assert_eq!(
            line(b"TSH\x01\0\0\0\0"),
            "sheet: accepted: version 1, 0 tasks on 0 cores\n"
        );
        let jobs = [(3, 1), (3, 1), (3, 2)];
        let jobs = jobs.map(|(period, budget)| homvaits::Job { period, budget });
        let sheet = homvaits::plan(&jobs, 8, 0).unwrap();
        let moved = homvaits::move_sheet(sheet.as_bytes()).unwrap();
        assert_eq!(
            line(moved.as_bytes()),
            "sheet: accepted: version 2, 3 tasks on 2 cores, loads 667 and 667\n"
        );
    }

    #[test]
    fn the_front_of_a_file_is_enough() {
        let mut long = TWO_TASKS.to_vec();
        for length in [36, 37, FRONT - 1, FRONT, FRONT + 1, 100_000] {
            long.resize(length, 0);
            let tally = answers(&long).tally;
            assert_eq!(
                (tally.accepted, tally.refused()),
                (u64::from(length == 36), u64::from(length > 36))
            );
        }
    }

    #[test]
    fn what_cannot_be_read_stands_in_its_place() {
        let folder = Scratch::new();
        let good = |name: &str| Found {
            path: folder.file(name, &TWO_TASKS),
            error: None,
        };
        let unread = Found {
            path: "no\nfile".into(),
            error: None,
        };
        let pipe = Found {
            path: "pipe".into(),
            error: Some("it is a pipe".into()),
        };
        let files = [good("a"), unread, pipe, good("b")];
        let answers = Answers::to(&files, WORDS);
        let [(before, first), (between, second)] = &answers.told[..] else {
            panic!("{:?}", answers.told);
        };
        assert!(before.contains("/a: accepted") && answers.text.contains("/b: accepted"));
        assert_eq!(between, "");
        assert_eq!(
            first,
            "homvaits check: no\\nfile: No such file or directory"
        );
        assert_eq!(second, "homvaits check: pipe: it is a pipe");
        let quiet = Style {
            quiet: true,
            ..WORDS
        };
        let answers = Answers::to(&files, quiet);
        assert!(answers.told[0].0.is_empty() && answers.text.is_empty());
        assert_eq!((answers.tally.accepted, answers.tally.not_read), (2, 2));
    }

    #[test]
    fn bytes_may_come_one_by_one_and_late() {
        struct Slow(usize);
        impl Read for Slow {
            fn read(&mut self, room: &mut [u8]) -> io::Result<usize> {
                self.0 += 1;
                room[0] = 7;
                match self.0 % 2 {
                    0 => Ok(1),
                    _ => Err(ErrorKind::Interrupted.into()),
                }
            }
        }
        let mut room = [0; 20];
        assert_eq!(read_all(Slow(0), &mut room).unwrap(), 20);
        assert_eq!(room, [7; 20]);
    }
}
