//! Logs and lists of calls, read from text.

use std::ffi::OsStr;

use super::{Answer, Call, Entry, Log, Origin, Task};
use crate::args::decimal;
use crate::failure::Failure;
use crate::files::{read_whole, shown, without_byte_order_mark};
use crate::jobs::checked_name;
use crate::wording;

/// Bytes that a log has at most.
pub const LONGEST: usize = 1 << 28;

/// Calls that a log has at most.
pub const MOST_CALLS: usize = 5_000_000;

/// A call, its answer if one is told, and its line.
#[derive(Clone, Copy, Debug, PartialEq, Eq)]
pub struct Told {
    pub call: Call,
    pub answer: Option<Answer>,
    pub line: u32,
}

/// The calls of one core, with what is told of it.
#[derive(Clone, Debug, Default, PartialEq, Eq)]
pub struct Part {
    /// The core and the line that names it, if one does.
    pub origin: Option<(Origin, u32)>,
    /// Tasks with their lines.
    pub tasks: Vec<(Task, u32)>,
    pub calls: Vec<Told>,
}

/// A text of calls.
#[derive(Debug)]
pub struct Calls {
    /// The file, as it is shown.
    pub file: String,
    /// At least one.
    pub parts: Vec<Part>,
}

/// Whether bytes begin as a log of some version.
pub fn is_log(bytes: &[u8]) -> bool {
    without_byte_order_mark(bytes).starts_with(b"homvaits log")
}

impl Calls {
    pub fn read(path: &OsStr) -> Result<Calls, Failure> {
        Calls::parse(shown(path), &read_whole(path, LONGEST)?)
    }

    pub fn parse(file: String, bytes: &[u8]) -> Result<Calls, Failure> {
        let mut calls = Calls {
            file,
            parts: vec![Part::default()],
        };
        let mut count = 0;
        let bytes = without_byte_order_mark(bytes);
        for (line, number) in bytes.split(|&byte| byte == b'\n').zip(1..) {
            let step = read_line(line).and_then(|line| calls.take(line, number, &mut count));
            step.map_err(|text| calls.wrong(number, &text))?;
        }
        Ok(calls)
    }

    /// What is wrong with a line.
    pub fn wrong(&self, line: u32, text: &str) -> Failure {
        Failure::new(format!("{}, line {line}: {text}", self.file))
    }

    fn take(&mut self, line: Line, number: u32, count: &mut usize) -> Result<(), String> {
        if let Line::Origin(origin) = line {
            return self.begin(origin, number);
        }
        let Some(part) = self.parts.last_mut() else {
            return Ok(());
        };
        match line {
            Line::Task(task) => part.add_task(task, number),
            Line::Call(call, answer, times) => {
                *count += times;
                if *count > MOST_CALLS {
                    return Err(format!("there are more than {MOST_CALLS} calls"));
                }
                let told = Told {
                    call,
                    answer,
                    line: number,
                };
                part.calls.extend(std::iter::repeat_n(told, times));
                Ok(())
            }
            Line::First if number != 1 => Err("this is the first line of another log".to_owned()),
            _ => Ok(()),
        }
    }

    /// The part of another core begins. Nothing stands in front of the first.
    fn begin(&mut self, origin: Origin, number: u32) -> Result<(), String> {
        let named = self.parts.iter().filter_map(|part| part.origin);
        for (earlier, line) in named {
            if earlier == origin {
                let what = origin.line();
                return Err(format!("`{what}` stands on line {line} too"));
            }
        }
        let part = Part {
            origin: Some((origin, number)),
            ..Part::default()
        };
        match self.parts.as_mut_slice() {
            [first] if first.origin.is_none() => {
                if !first.calls.is_empty() || !first.tasks.is_empty() {
                    return Err("lines in front of it belong to no core".to_owned());
                }
                *first = part;
            }
            _ => self.parts.push(part),
        }
        Ok(())
    }

    /// The logs as they stand.
    pub fn logs(self) -> Result<Vec<Log>, Failure> {
        let mut logs = Vec::new();
        for part in self.parts.iter().filter(|part| !part.is_empty()) {
            let Some((origin, _)) = part.origin else {
                return Err(self.wrong(part.line(), "no line `core K` says which core it is of"));
            };
            let entry = |told: &Told| match told.answer {
                Some(answer) => Ok(Entry {
                    call: told.call,
                    answer,
                }),
                None => Err(self.wrong(
                    told.line,
                    "the answer is missing: `homvaits run --calls` makes the calls and tells it",
                )),
            };
            let entries = part.calls.iter().map(entry).collect::<Result<_, _>>()?;
            let mut tasks: Vec<Task> = part.tasks.iter().map(|(task, _)| task.clone()).collect();
            tasks.sort_by_key(|task| (task.period, task.number));
            logs.push(Log {
                origin,
                tasks,
                entries,
            });
        }
        Ok(logs)
    }
}

impl Part {
    /// Whether nothing is told at all.
    pub fn is_empty(&self) -> bool {
        *self == Part::default()
    }

    /// The line with which it begins.
    pub fn line(&self) -> u32 {
        let origin = self.origin.map(|(_, line)| line);
        let task = self.tasks.first().map(|(_, line)| *line);
        let call = self.calls.first().map(|told| told.line);
        origin.or(task).or(call).unwrap_or(1)
    }

    fn add_task(&mut self, task: Task, line: u32) -> Result<(), String> {
        if !self.calls.is_empty() {
            return Err("the tasks stand in front of the calls".to_owned());
        }
        let same = |(other, _): &&(Task, u32)| other.number == task.number;
        if let Some((_, line)) = self.tasks.iter().find(same) {
            return Err(format!("task {} stands on line {line} too", task.number));
        }
        self.tasks.push((task, line));
        Ok(())
    }
}

/// What a line says.
enum Line {
    Blank,
    First,
    Origin(Origin),
    Task(Task),
    /// A call, so many times.
    Call(Call, Option<Answer>, usize),
}

fn read_line(bytes: &[u8]) -> Result<Line, String> {
    let end = bytes.iter().position(|&byte| byte == b'#');
    let text = std::str::from_utf8(&bytes[..end.unwrap_or(bytes.len())])
        .map_err(|_| "this is not text in UTF-8".to_owned())?;
    let words: Vec<&str> = text.split_ascii_whitespace().collect();
    match words.as_slice() {
        [] => Ok(Line::Blank),
        ["homvaits", "log", "1"] => Ok(Line::First),
        ["homvaits", "log", ..] => Err("this is a log of a version that is not known".to_owned()),
        ["bench"] => Ok(Line::Origin(Origin::Bench)),
        ["core", core] => Ok(Line::Origin(Origin::Core(number(core, 0, 7)? as u8))),
        ["task", ..] => task(&words, text).map(Line::Task),
        ["release", task, answer @ ..] => {
            let call = Call::Release(number(task, 0, 255)? as u8);
            Ok(Line::Call(call, accepted(answer)?, 1))
        }
        ["finish", task, answer @ ..] => {
            let call = Call::Finish(number(task, 0, 255)? as u8);
            Ok(Line::Call(call, accepted(answer)?, 1))
        }
        ["tick", answer @ ..] => Ok(Line::Call(Call::Tick, ticked(answer)?, 1)),
        ["ticks", times] => {
            let times = number(times, 1, MOST_CALLS as u64)?;
            Ok(Line::Call(Call::Tick, None, times as usize))
        }
        ["core" | "release" | "finish" | "ticks", ..] => Err(format!(
            "`{}` has one number behind it, and is followed by {}",
            words[0],
            wording::counted(words.len() as u64 - 1, "word")
        )),
        ["bench", ..] => Err("`bench` stands alone on its line".to_owned()),
        [word, ..] => Err(format!(
            "{} begins no line of a log: there are core, bench, task, release, finish, tick and ticks",
            wording::quoted(word)
        )),
    }
}

fn number(word: &str, low: u64, high: u64) -> Result<u64, String> {
    match decimal(word) {
        Some(number) if (low..=high).contains(&number) => Ok(number),
        _ => {
            let word = wording::quoted(word);
            Err(format!("{word} is not a number from {low} to {high}"))
        }
    }
}

/// `task 1 period 9 budget 7 within 9 stroke 4 name receiver`; the name goes to the end of the line.
fn task(words: &[&str], text: &str) -> Result<Task, String> {
    let form = "a task is told as `task 0 period 5 budget 1 within 4`, with `stroke 2` behind it if it has strokes and `name key` if it has a name";
    let (number_word, p, e, w, rest) = match words {
        ["task", i, "period", p, "budget", e, "within", w, rest @ ..] => (i, p, e, w, rest),
        _ => return Err(form.to_owned()),
    };
    let (stroke, rest) = match rest {
        ["stroke", stroke, rest @ ..] => (*stroke, rest),
        rest => ("1", rest),
    };
    let name = match rest {
        [] => None,
        ["name", _, ..] => {
            // the words before the name are known, and none of them has `name` in it
            let (_, name) = text.split_once("name").unwrap_or_default();
            Some(checked_name(name.trim_ascii())?)
        }
        _ => return Err(form.to_owned()),
    };
    let period = number(p, 1, 60_000)?;
    let budget = number(e, 1, period)?;
    Ok(Task {
        number: number(number_word, 0, 63)? as u8,
        period: period as u16,
        budget: budget as u16,
        within: number(w, 1, period)? as u16,
        stroke: number(stroke, 1, budget.min(255))? as u8,
        name,
    })
}

fn accepted(words: &[&str]) -> Result<Option<Answer>, String> {
    match words {
        [] => Ok(None),
        ["accepted"] => Ok(Some(Answer::Accepted)),
        _ => refused(words, "the answer is `accepted` or as `refused 18 place 0`"),
    }
}

fn ticked(words: &[&str]) -> Result<Option<Answer>, String> {
    match words {
        [] => Ok(None),
        ["idle"] => Ok(Some(Answer::Ticked(None))),
        [task] => Ok(Some(Answer::Ticked(Some(number(task, 0, 63)? as u8)))),
        _ => refused(
            words,
            "the answer is a task's number, `idle`, or as `refused 21 place 0`",
        ),
    }
}

fn refused(words: &[&str], form: &str) -> Result<Option<Answer>, String> {
    match words {
        ["refused", refusal, "place", place] => {
            let refusal = number(refusal, 1, 255)? as u8;
            let place = number(place, 0, 65_535)?;
            Ok(Some(Answer::Refused(refusal, place)))
        }
        _ => Err(form.to_owned()),
    }
}

#[cfg(test)]
mod tests {
    use super::*;

    fn parse(text: &str) -> Result<Calls, Failure> {
        Calls::parse("calls".to_owned(), text.as_bytes())
    }

    #[test]
    fn a_log_is_read_back() {
        let text = "homvaits log 1\ncore 1\n\
            task 2 period 5 budget 1 within 4 name name of a task\n\
            task 0 period 9 budget 7 within 9\n\
            task 3 period 9 budget 7 within 9 stroke 7\n\
            task 4 period 9 budget 7 within 9 stroke 2 name stroke 3\n\
            release 2 accepted\nrelease 0 refused 18 place 0\ntick 2\ntick idle\ntick refused 21 place 0\nfinish 9 refused 17 place 0\n\
            bench\n";
        let logs = parse(text).unwrap().logs().unwrap();
        let texts: String = logs.iter().map(Log::text).collect();
        assert_eq!(format!("homvaits log 1\n{texts}"), text);
    }

    #[test]
    fn calls_without_answers_are_taken() {
        let calls = parse(" release 3 # now\r\n\nticks 2\n tick\nfinish 3").unwrap();
        let [part] = calls.parts.as_slice() else {
            panic!("one part");
        };
        let told: Vec<(Call, u32)> = part
            .calls
            .iter()
            .map(|told| (told.call, told.line))
            .collect();
        let (release, finish) = ((Call::Release(3), 1), (Call::Finish(3), 5));
        assert_eq!(
            told,
            [
                release,
                (Call::Tick, 3),
                (Call::Tick, 3),
                (Call::Tick, 4),
                finish
            ]
        );
        assert!(parse("core 0\ntick").unwrap().logs().is_err());
    }

    #[test]
    fn what_is_wrong_with_a_line_is_told() {
        for (text, line, part) in [
            ("jump", 1, "`jump` begins no line"),
            ("\nrelease", 2, "`release` has one number behind it"),
            ("core 0 1", 1, "followed by 2 words"),
            ("release x", 1, "`x` is not a number from 0 to 255"),
            ("release 1 no", 1, "`accepted`"),
            ("tick 64", 1, "`64` is not a number from 0 to 63"),
            ("tick 0 0", 1, "`idle`"),
            ("ticks 0", 1, "`0` is not a number"),
            ("core 8", 1, "`8` is not a number from 0 to 7"),
            ("core 1\ncore 0\ncore 1", 3, "line 1 too"),
            ("tick\ncore 1", 2, "belong to no core"),
            ("task 1 period 4", 1, "a task is told as"),
            (
                "task 1 period 4 budget 5 within 4",
                1,
                "`5` is not a number from 1 to 4",
            ),
            (
                "task 1 period 4 budget 4 within 4 name 5",
                1,
                "begins with a letter",
            ),
            (
                "task 1 period 4 budget 3 within 4 stroke 4",
                1,
                "`4` is not a number from 1 to 3",
            ),
            ("tick\nhomvaits log 1", 2, "another log"),
            ("homvaits log 2", 1, "not known"),
            ("ticks 5000000\ntick", 2, "more than 5000000 calls"),
        ] {
            let told = parse(text).unwrap_err().text;
            assert!(told.starts_with(&format!("calls, line {line}: ")), "{told}");
            assert!(told.contains(part), "{text}: {told}");
        }
    }
}
