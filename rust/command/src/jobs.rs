//! Job lists: text with a line for each job.

use std::ffi::OsStr;

use homvaits::{Job, Place, Refusal, Word};

use crate::args::decimal;
use crate::failure::Failure;
use crate::files::{read_whole, shown, without_byte_order_mark};
use crate::wording::{prints, quoted};

/// Bytes that a job list has at most.
const LONGEST: usize = 1 << 20;

/// Characters that a name has at most.
const LONGEST_NAME: usize = 40;

/// Jobs that are read: one more than the library takes, so that it is the library that refuses a longer list.
const MOST: usize = 65;

/// A job, where it stands, and its name.
#[derive(Clone, Debug, PartialEq, Eq)]
pub struct Listed {
    pub job: Job,
    /// The line, from 1.
    pub line: usize,
    pub name: Option<String>,
}

/// A job list: task number i is the i-th job.
pub struct JobList {
    /// The file, as it is shown.
    pub file: String,
    pub listed: Vec<Listed>,
}

impl JobList {
    pub fn read(path: &OsStr) -> Result<JobList, Failure> {
        let bytes = read_whole(path, LONGEST)?;
        let bytes = without_byte_order_mark(&bytes);
        let file = shown(path);
        if bytes.starts_with(b"TSH") {
            return Err(Failure::refused(format!(
                "{file}: it begins as a sheet, and a job list is wanted"
            )));
        }
        let mut listed = Vec::new();
        for (at, line) in bytes.split(|&byte| byte == b'\n').enumerate() {
            let line_number = at + 1;
            let found = job_line(line)
                .map_err(|text| Failure::refused(format!("{file}, line {line_number}: {text}")))?;
            if let Some((job, name)) = found {
                listed.push(Listed {
                    job,
                    line: line_number,
                    name,
                });
            }
            if listed.len() == MOST {
                break;
            }
        }
        Ok(JobList { file, listed })
    }

    pub fn jobs(&self) -> Vec<Job> {
        self.listed.iter().map(|listed| listed.job).collect()
    }

    /// A task by its number and name: `task 1 (receiver)`.
    pub fn task(&self, task: usize) -> String {
        match self
            .listed
            .get(task)
            .and_then(|listed| listed.name.as_ref())
        {
            Some(name) => format!("task {task} ({name})"),
            None => format!("task {task}"),
        }
    }

    /// The file and the line of a task: `radio.jobs, line 3`.
    pub fn place(&self, task: usize) -> String {
        match self.listed.get(task) {
            Some(listed) => format!("{}, line {}", self.file, listed.line),
            None => self.file.clone(),
        }
    }

    /// Why the library refuses the list, with the line.
    pub fn refused(&self, refusal: Refusal) -> Failure {
        let number = refusal.number();
        let name = refusal.word.name();
        let (place, why) = match (refusal.word, refusal.place) {
            (Word::Count, _) => (
                self.place(MOST - 1),
                "there are more than 64 jobs".to_owned(),
            ),
            (word, Place::Task(task)) => {
                let task = usize::from(task);
                let job = self.listed.get(task).map(|listed| listed.job);
                let (period, budget) = job.map_or((0, 0), |job| (job.period, job.budget));
                let what = self.task(task);
                let why = match word {
                    Word::Period => format!("the period {period} of {what} is not 1 to 60000"),
                    Word::Budget => {
                        format!("the budget {budget} of {what} is not 1 to its period, {period}")
                    }
                    _ => format!("{what}: {}", word.text()),
                };
                (self.place(task), why)
            }
            (word, _) => (self.file.clone(), word.text().to_owned()),
        };
        Failure::refused(format!("{place}: refused {number} ({name}): {why}"))
    }
}

const FORM: &str = "a line has a period, a budget and, if the job has one, a name";

/// The job of a line and its name; none on a blank line.
fn job_line(line: &[u8]) -> Result<Option<(Job, Option<String>)>, String> {
    let end = line.iter().position(|&byte| byte == b'#');
    let line = &line[..end.unwrap_or(line.len())];
    let text = std::str::from_utf8(line).map_err(|_| "this is not text in UTF-8".to_owned())?;
    let text = text.trim_matches(is_blank);
    if text.is_empty() {
        return Ok(None);
    }
    let (period, rest) = first_word(text);
    let (budget, name) = first_word(rest);
    let period = number("period", period)?;
    let budget = number("budget", budget)?;
    let name = match name {
        "" => None,
        name => Some(checked_name(name)?),
    };
    Ok(Some((Job { period, budget }, name)))
}

fn is_blank(character: char) -> bool {
    matches!(character, ' ' | '\t' | '\r')
}

/// The first word, and what follows it and the blanks behind it.
fn first_word(text: &str) -> (&str, &str) {
    match text.find(is_blank) {
        Some(end) => (&text[..end], text[end..].trim_start_matches(is_blank)),
        None => (text, ""),
    }
}

fn number(what: &str, word: &str) -> Result<u16, String> {
    if word.is_empty() {
        return Err(format!("the {what} is missing: {FORM}"));
    }
    if !word.bytes().all(|byte| byte.is_ascii_digit()) {
        let word = quoted(word);
        return Err(format!("the {what} {word} is not a number: {FORM}"));
    }
    decimal(word)
        .and_then(|number| u16::try_from(number).ok())
        .ok_or_else(|| format!("the {what} {} is above 65535", quoted(word)))
}

/// A name begins with a letter, so that a third number is not taken for one.
pub fn checked_name(name: &str) -> Result<String, String> {
    if !name.starts_with(char::is_alphabetic) {
        let name = quoted(name);
        return Err(format!(
            "{name} is no name, which begins with a letter: {FORM}"
        ));
    }
    if !prints(name) {
        return Err(format!(
            "the name {} has a character that does not print",
            quoted(name)
        ));
    }
    if name.chars().count() > LONGEST_NAME {
        return Err(format!("the name is longer than {LONGEST_NAME} characters"));
    }
    Ok(name.to_owned())
}

#[cfg(test)]
mod tests {
    use super::*;

    fn line(text: &str) -> Result<Option<(u16, u16, Option<String>)>, String> {
        let found = job_line(text.as_bytes())?;
        Ok(found.map(|(job, name)| (job.period, job.budget, name)))
    }

    #[test]
    fn a_line_has_two_numbers_and_a_name() {
        assert_eq!(line("5 1"), Ok(Some((5, 1, None))));
        assert_eq!(line("\t5  1 \r"), Ok(Some((5, 1, None))));
        assert_eq!(line("5 1#key"), Ok(Some((5, 1, None))));
        let named = |name: &str| Ok(Some((5, 1, Some(name.to_owned()))));
        assert_eq!(line("5 1 key # the first"), named("key"));
        assert_eq!(line("5 1\tkey of the set \r"), named("key of the set"));
        assert_eq!(line("5 1 Überlagerung <&>"), named("Überlagerung <&>"));
        assert_eq!(line(""), Ok(None));
        assert_eq!(line(" \t # 5 1"), Ok(None));
    }

    #[test]
    fn what_is_wrong_with_a_line_is_told() {
        for (text, part) in [
            ("5", "the budget is missing"),
            ("x 1", "the period `x` is not a number"),
            ("5 -1", "the budget `-1` is not a number"),
            ("65536 1", "the period `65536` is above 65535"),
            ("5 99999999999999999999999", "is above 65535"),
            ("5 1 1", "`1` is no name"),
            ("5 1 a\u{7}", "does not print"),
            ("5 1 a\u{202e}b", "does not print"),
        ] {
            let told = line(text).unwrap_err();
            assert!(told.contains(part), "{text}: {told}");
        }
        assert!(line(&format!("5 1 {}", "a".repeat(40))).is_ok());
        assert!(line(&format!("5 1 {}", "a".repeat(41))).is_err());
        assert!(job_line(b"5 1 \xff").is_err());
        assert!(job_line(b"5 1 # \xff").is_ok());
    }
}
