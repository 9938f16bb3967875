//! Logs: the calls of a core and their answers, as text and back.

pub mod reader;

use std::fmt::Write as _;

/// The first line of a log.
pub const FIRST_LINE: &str = "homvaits log 1";

/// A task of a core.
#[derive(Clone, Debug, PartialEq, Eq)]
pub struct Task {
    pub number: u8,
    pub period: u16,
    pub budget: u16,
    /// Ticks after its release by which a job must have ended: w of the sheet, the period on the bench.
    pub within: u16,
    /// Its stroke length. A line says it where it is above 1.
    pub stroke: u8,
    pub name: Option<String>,
}

#[derive(Clone, Copy, Debug, PartialEq, Eq)]
pub enum Call {
    Release(u8),
    Finish(u8),
    Tick,
}

#[derive(Clone, Copy, Debug, PartialEq, Eq)]
pub enum Answer {
    /// Of a release or a finish.
    Accepted,
    /// Of a tick: the task that has it, or none.
    Ticked(Option<u8>),
    /// The number and the place of a refusal.
    Refused(u8, u64),
}

#[derive(Clone, Copy, Debug, PartialEq, Eq)]
pub struct Entry {
    pub call: Call,
    pub answer: Answer,
}

/// Which core a log is of.
#[derive(Clone, Copy, Debug, PartialEq, Eq)]
pub enum Origin {
    /// A core of a sheet, by its number.
    Core(u8),
    /// A job list on the bench.
    Bench,
}

/// What happened on a core, from its start on.
#[derive(Clone, Debug, PartialEq, Eq)]
pub struct Log {
    pub origin: Origin,
    /// In order of priority.
    pub tasks: Vec<Task>,
    pub entries: Vec<Entry>,
}

impl Task {
    /// The number, and the name behind it: `1 receiver`.
    pub fn label(&self) -> String {
        match &self.name {
            Some(name) => format!("{} {name}", self.number),
            None => self.number.to_string(),
        }
    }
}

impl Origin {
    /// The line that begins the calls of this core.
    pub fn line(self) -> String {
        match self {
            Origin::Core(core) => format!("core {core}"),
            Origin::Bench => "bench".to_owned(),
        }
    }
}

impl Log {
    /// How many units of time passed: the ticks that were not refused.
    pub fn ticks(&self) -> usize {
        let passed =
            |entry: &&Entry| matches!((entry.call, entry.answer), (Call::Tick, Answer::Ticked(_)));
        self.entries.iter().filter(passed).count()
    }

    /// Its lines, which a reader takes back: the core, its tasks, and a call a line.
    pub fn text(&self) -> String {
        let mut text = format!("{}\n", self.origin.line());
        for task in &self.tasks {
            let (number, period, budget) = (task.number, task.period, task.budget);
            let within = task.within;
            let _ = write!(
                text,
                "task {number} period {period} budget {budget} within {within}"
            );
            if task.stroke > 1 {
                let _ = write!(text, " stroke {}", task.stroke);
            }
            let _ = match &task.name {
                Some(name) => writeln!(text, " name {name}"),
                None => writeln!(text),
            };
        }
        for entry in &self.entries {
            let _ = writeln!(text, "{} {}", entry.call.text(), entry.answer.text());
        }
        text
    }
}

impl Call {
    /// The call as it stands in a log.
    pub fn text(self) -> String {
        match self {
            Call::Release(task) => format!("release {task}"),
            Call::Finish(task) => format!("finish {task}"),
            Call::Tick => "tick".to_owned(),
        }
    }
}

impl Answer {
    /// The answer as it stands in a log.
    pub fn text(self) -> String {
        match self {
            Answer::Accepted => "accepted".to_owned(),
            Answer::Ticked(Some(task)) => task.to_string(),
            Answer::Ticked(None) => "idle".to_owned(),
            Answer::Refused(number, place) => format!("refused {number} place {place}"),
        }
    }
}
