//! How the jobs of runs got on, in a table and a sentence.

use crate::judge::{self, Job, Tally};
use crate::log::{Log, Origin, Task};
use crate::table::{Side, Table};
use crate::wording::counted;

/// The lines, and whether a job is late.
pub struct Told {
    pub lines: Vec<String>,
    pub late: bool,
}

pub fn told(logs: &[Log]) -> Told {
    let mut table = Table::new(&[
        ("core", Side::Right),
        ("task", Side::Right),
        ("name", Side::Left),
        ("jobs", Side::Right),
        ("late", Side::Right),
        ("latest end", Side::Right),
        ("within", Side::Right),
        ("margin", Side::Right),
    ]);
    let mut sums = Sums::default();
    for log in logs {
        let jobs = judge::jobs(log);
        for (task, tally) in log.tasks.iter().zip(judge::tallies(log, &jobs)) {
            table.row(row(log.origin, task, tally));
        }
        sums.add(log, &jobs);
    }
    let mut lines = match sums.tasks {
        0 => Vec::new(),
        _ => table.lines(),
    };
    lines.extend(sums.sentences());
    Told {
        lines,
        late: sums.late > 0,
    }
}

/// A task's line. Of a late job that is pending, or was finished right behind its w-th tick, it is known only that it took more ticks
/// than those counted.
fn row(origin: Origin, task: &Task, tally: Tally) -> Vec<String> {
    let within = usize::from(task.within);
    let margin = |ticks: usize| within as i64 - ticks as i64;
    let pending = tally.pending.filter(|&ticks| ticks >= within);
    let finished = tally
        .latest
        .filter(|&latest| tally.late > 0 && latest == within);
    let (latest, margin) = match (pending.max(finished), tally.latest) {
        (Some(ticks), latest) if latest.is_none_or(|latest| latest <= ticks) => {
            (format!("over {ticks}"), format!("below {}", margin(ticks)))
        }
        (_, Some(latest)) => (latest.to_string(), margin(latest).to_string()),
        _ => ("-".to_owned(), "-".to_owned()),
    };
    vec![
        match origin {
            Origin::Core(core) => core.to_string(),
            Origin::Bench => String::new(),
        },
        task.number.to_string(),
        task.name.clone().unwrap_or_default(),
        tally.jobs.to_string(),
        tally.late.to_string(),
        latest,
        task.within.to_string(),
        margin,
    ]
}

#[derive(Default)]
struct Sums {
    cores: usize,
    tasks: usize,
    jobs: usize,
    ticks: usize,
    late: usize,
    /// Jobs that are pending at the end of the log and need not have ended yet.
    open: usize,
    /// The first job that is late, in words.
    first: Option<String>,
}

impl Sums {
    fn add(&mut self, log: &Log, jobs: &[Job]) {
        self.cores += 1;
        self.tasks += log.tasks.len();
        self.jobs += jobs.len();
        self.ticks += log.ticks();
        let late = jobs.iter().filter(|job| job.late);
        self.late += late.clone().count();
        let open = jobs.iter().filter(|job| job.ended.is_none() && !job.late);
        self.open += open.count();
        if let (None, Some(job)) = (&self.first, late.clone().min_by_key(|job| job.due)) {
            let task = log.tasks[job.row].label();
            let (origin, due) = (log.origin.line(), job.due);
            let released = counted(job.released as u64, "tick");
            self.first = Some(format!(
                "the first on {origin}: task {task}, released after {released}, had to end by tick {due}"
            ));
        }
    }

    fn sentences(&self) -> Vec<String> {
        let jobs = counted(self.jobs as u64, "job");
        let ticks = counted(self.ticks as u64, "tick");
        let ticks = match self.cores {
            1 => ticks,
            cores => format!("{ticks} of {}", counted(cores as u64, "core")),
        };
        let mut lines = vec![match self.late {
            0 => format!("{jobs} in {ticks}: none is late"),
            late => format!("{jobs} in {ticks}: {late} late"),
        }];
        lines.extend(self.first.clone());
        if self.open > 0 {
            let open = counted(self.open as u64, "job");
            lines.push(format!(
                "{open} pending at the end, with time left to end in"
            ));
        }
        lines
    }
}
