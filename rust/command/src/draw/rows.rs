//! What stands in each row of a picture. A moment is counted by the ticks before it, so tick t lies between the moments t - 1 and t.

#[cfg(test)]
pub mod samples;

use crate::judge::{self, Job};
use crate::log::{Answer, Call, Entry, Log, Origin, Task};
use crate::wording::counted;

/// The run of a core.
pub struct Chart<'a> {
    pub origin: Origin,
    pub ticks: usize,
    /// The tasks in order of priority, and then the other numbers if a call or a tick has one.
    pub rows: Vec<Row<'a>>,
    /// Of each tick whether no task had it.
    pub idle: Vec<bool>,
    late: usize,
}

pub struct Row<'a> {
    /// None where it is for the numbers that no task of the core has, and for refused ticks.
    pub task: Option<&'a Task>,
    /// Of each tick what came of it here.
    pub cells: Vec<Cell>,
    /// Calls in their order, then due moments in theirs.
    pub marks: Vec<Mark>,
}

#[derive(Clone, Copy, Debug, Default, PartialEq, Eq)]
pub struct Cell {
    /// The number that had the tick.
    pub run: Option<u8>,
    /// Whether a job was pending in it.
    pub pending: bool,
    /// Whether that job must have ended before it.
    pub late: bool,
}

#[derive(Clone, Copy, Debug, PartialEq, Eq)]
pub struct Mark {
    pub moment: usize,
    /// None for a refused tick.
    pub number: Option<u8>,
    pub what: What,
}

#[derive(Clone, Copy, Debug, PartialEq, Eq)]
pub enum What {
    Release,
    Finish,
    /// The call, and the number and place of its refusal.
    Refused(Call, u8, u64),
    /// A job must have ended, and whether it had not.
    Due {
        missed: bool,
    },
    /// A late job that no tick follows: it was finished at the moment when it was due, or the log ends there.
    LateHere,
}

/// The label of the row that is no task's.
pub const OTHER: &str = "other calls";

impl Mark {
    pub fn is_refused(&self) -> bool {
        matches!(self.what, What::Refused(..))
    }
}

impl<'a> Chart<'a> {
    pub fn of(log: &'a Log) -> Chart<'a> {
        let ticks = log.ticks();
        let tasks = log.tasks.iter().map(Some);
        let rows = tasks.chain([None]).map(|task| Row::new(task, ticks));
        let mut chart = Chart {
            origin: log.origin,
            ticks,
            rows: rows.collect(),
            idle: vec![false; ticks],
            late: 0,
        };
        let mut moment = 0;
        for entry in &log.entries {
            moment = chart.take(entry, moment);
        }
        let jobs = judge::jobs(log);
        jobs.iter().for_each(|job| chart.job(job));
        (0..log.tasks.len()).for_each(|row| chart.bars(row, &jobs));
        chart.rows.retain(|row| row.task.is_some() || row.is_used());
        chart
    }

    /// Such as `core 0: 3 tasks, 40 ticks`.
    pub fn heading(&self) -> String {
        let tasks = self.rows.iter().filter(|row| row.task.is_some()).count();
        let late = match self.late {
            0 => String::new(),
            late => format!(", {} late", counted(late as u64, "job")),
        };
        format!(
            "{}: {}, {}{late}",
            self.origin.line(),
            counted(tasks as u64, "task"),
            counted(self.ticks as u64, "tick")
        )
    }

    /// Answers the moment after the call.
    fn take(&mut self, entry: &Entry, moment: usize) -> usize {
        let (number, what) = match (entry.call, entry.answer) {
            (Call::Tick, Answer::Ticked(served)) => {
                self.tick(served, moment);
                return moment + 1;
            }
            (Call::Release(number), Answer::Accepted) => (Some(number), What::Release),
            (Call::Finish(number), Answer::Accepted) => (Some(number), What::Finish),
            (call, Answer::Refused(refusal, place)) => {
                (number(call), What::Refused(call, refusal, place))
            }
            // no call has such an answer
            _ => return moment,
        };
        self.row(number).marks.push(Mark {
            moment,
            number,
            what,
        });
        moment
    }

    fn tick(&mut self, served: Option<u8>, moment: usize) {
        match served {
            Some(_) => self.row(served).cells[moment].run = served,
            None => self.idle[moment] = true,
        }
    }

    /// The row of a task, or else the last one.
    fn row(&mut self, number: Option<u8>) -> &mut Row<'a> {
        let last = self.rows.len() - 1;
        let tasks = self.rows.iter().map(|row| row.task);
        let mut numbers = tasks.map(|task| task.map(|task| task.number));
        let row = numbers.position(|task| task.is_some() && task == number);
        &mut self.rows[row.unwrap_or(last)]
    }

    /// The marks of a job. Its ticks are left to `bars`.
    fn job(&mut self, job: &Job) {
        let end = job.ended.unwrap_or(self.ticks);
        let row = &mut self.rows[job.row];
        let number = row.task.map(|task| task.number);
        let mut mark = |what| {
            row.marks.push(Mark {
                moment: job.due,
                number,
                what,
            });
        };
        if job.due <= self.ticks {
            mark(What::Due { missed: job.late });
        }
        if job.late && job.due >= end {
            mark(What::LateHere);
        }
        self.late += usize::from(job.late);
    }

    /// The ticks in which the jobs of a row were pending and late.
    fn bars(&mut self, place: usize, jobs: &[Job]) {
        let own = jobs.iter().filter(|job| job.row == place);
        let spans = own.map(|job| (job, job.ended.unwrap_or(self.ticks)));
        let pending = covered(
            self.ticks,
            spans.clone().map(|(job, end)| (job.released, end)),
        );
        let late = spans.filter(|(job, _)| job.late);
        let late = covered(self.ticks, late.map(|(job, end)| (job.due, end)));
        let marks = pending.into_iter().zip(late);
        for (cell, (pending, late)) in self.rows[place].cells.iter_mut().zip(marks) {
            (cell.pending, cell.late) = (pending, late);
        }
    }
}

/// Of each tick whether one of the spans between two moments has it.
fn covered(ticks: usize, spans: impl Iterator<Item = (usize, usize)>) -> Vec<bool> {
    // how many spans begin at each moment, less those that end
    let mut changes = vec![0_isize; ticks + 1];
    for (from, to) in spans.filter(|(from, to)| from < to) {
        changes[from] += 1;
        changes[to] -= 1;
    }
    let mut open = 0;
    let has = |change: isize| {
        open += change;
        open > 0
    };
    changes.into_iter().take(ticks).map(has).collect()
}

impl<'a> Row<'a> {
    fn new(task: Option<&'a Task>, ticks: usize) -> Row<'a> {
        Row {
            task,
            cells: vec![Cell::default(); ticks],
            marks: Vec::new(),
        }
    }

    /// Whether anything stands in it.
    fn is_used(&self) -> bool {
        !self.marks.is_empty() || self.cells.iter().any(|cell| cell.run.is_some())
    }

    /// Whether nothing but refused calls stands in it.
    pub fn is_calls_alone(&self) -> bool {
        self.task.is_none()
            && self.marks.iter().all(Mark::is_refused)
            && self.cells.iter().all(|cell| cell.run.is_none())
    }

    /// The number of its task, and the name behind it.
    pub fn label(&self) -> String {
        match self.task {
            Some(task) => task.label(),
            None => OTHER.to_owned(),
        }
    }
}

/// The task that a call names.
fn number(call: Call) -> Option<u8> {
    match call {
        Call::Release(number) | Call::Finish(number) => Some(number),
        Call::Tick => None,
    }
}

/// Period, budget and within of a task, such as `p 9 e 7 w 9`, and ` q 4` behind it for strokes of more than one tick.
pub fn figures(task: &Task) -> String {
    let figures = format!("p {} e {} w {}", task.period, task.budget, task.within);
    match task.stroke {
        0 | 1 => figures,
        stroke => format!("{figures} q {stroke}"),
    }
}

/// Whether some stroke has more than one tick.
pub fn has_strokes(logs: &[Log]) -> bool {
    let mut tasks = logs.iter().flat_map(|log| &log.tasks);
    tasks.any(|task| task.stroke > 1)
}

#[cfg(test)]
mod tests {
    use super::samples::{made, pictures, Truth};
    use super::*;

    #[test]
    fn the_samples_have_every_mark() {
        let logs: Vec<Log> = pictures().into_iter().flatten().collect();
        let truths: Vec<Truth> = logs.iter().map(Truth::of).collect();
        assert!(truths.iter().any(|truth| !truth.late.is_empty()));
        let marks = || truths.iter().flat_map(|truth| truth.marks.keys());
        for kind in ["release", "due", "finish", "refused", "late"] {
            assert!(marks().filter(|mark| mark.0 == kind).count() > 20, "{kind}");
        }
        for refusal in [17, 18, 19, 20, 21] {
            assert!(marks().any(|mark| mark.3 == refusal), "{refusal}");
        }
        assert!(has_strokes(&logs));
        let at_once = |truth: &Truth| truth.marks.values().any(|&count| count > 1);
        assert!(truths.iter().any(at_once));
    }

    #[test]
    fn a_heading_counts_tasks_ticks_and_late_jobs() {
        let heading = |log: &Log| Chart::of(log).heading();
        let headings: Vec<String> = made().iter().map(heading).collect();
        assert_eq!(headings[1], "core 7: 4 tasks, 6 ticks");
        assert_eq!(headings[2], "core 7: 4 tasks, 2 ticks, 1 job late");
        assert_eq!(headings[5], "core 7: 4 tasks, 3 ticks, 2 jobs late");
        assert_eq!(headings[6], "core 0: 0 tasks, 1 tick");
        assert_eq!(headings[7], "bench: 0 tasks, 0 ticks");
    }

    #[test]
    fn other_calls_have_a_row_where_there_are_any() {
        let rows = |log: &Log| Chart::of(log).rows.last().map(Row::label);
        let labels: Vec<Option<String>> = made().iter().map(rows).collect();
        let others = labels.iter().map(|label| label.as_deref() == Some(OTHER));
        let expected = [false, true, false, true, true, false, true, false];
        assert!(others.eq(expected));
    }
}
