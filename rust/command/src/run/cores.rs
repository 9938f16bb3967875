//! The cores that are run: started from a sheet, or from a job list on the bench.

use std::ffi::OsStr;

use homvaits::{Core, Sheet, Word};

use super::driver::Driver;
use crate::failure::Failure;
use crate::files::shown;
use crate::jobs::JobList;
use crate::log::{Log, Origin, Task};
use crate::wording;

/// A core that was started, and its tasks in order of priority.
pub struct Started {
    pub origin: Origin,
    pub core: Core,
    pub tasks: Vec<Task>,
}

impl Started {
    /// The log of what is done on it.
    pub fn run(self, work: impl FnOnce(&mut Driver)) -> Log {
        let mut driver = Driver::new(self.core);
        work(&mut driver);
        Log {
            origin: self.origin,
            tasks: self.tasks,
            entries: driver.entries,
        }
    }
}

/// The cores of a sheet, or the one that is named; and how many tasks the sheet has.
pub fn of_sheet(
    path: &OsStr,
    bytes: &[u8],
    only: Option<u8>,
) -> Result<(Vec<Started>, usize), Failure> {
    let sheet = Sheet::check(bytes).map_err(|refusal| {
        let why = wording::refused(refusal, bytes);
        let hint = match refusal.word {
            Word::Mark => "a job list is run with --bench, and a log is given to --calls",
            _ => "`homvaits explain` tells more",
        };
        Failure::refused(format!("{}: {why}; {hint}", shown(path)))
    })?;
    let cores = sheet.cores().len() as u8;
    let numbers: Vec<u8> = match only {
        Some(core) => vec![core],
        None => (0..cores).collect(),
    };
    let cores = numbers
        .into_iter()
        .map(|number| match Core::start(&sheet, number) {
            Ok(core) => Ok(started(&sheet, number, core)),
            Err(_) => Err(Failure::new(format!(
                "there is no core {number}: {} has {}",
                shown(path),
                wording::counted(cores.into(), "core"),
            ))),
        });
    let started = cores.collect::<Result<_, _>>()?;
    let tasks = sheet.tasks().len();
    Ok((started, tasks))
}

fn started(sheet: &Sheet, number: u8, core: Core) -> Started {
    let within = |task: u8| {
        let found = sheet.tasks().nth(task.into());
        found.map_or(0, |task| task.within)
    };
    let tasks = core.tasks().iter().map(|task| Task {
        number: task.number,
        period: task.period,
        budget: task.budget,
        within: within(task.number),
        stroke: task.stroke,
        name: None,
    });
    Started {
        origin: Origin::Core(number),
        tasks: tasks.collect(),
        core,
    }
}

/// All jobs of a list on one core, each with its period to end in.
pub fn of_list(list: &JobList) -> Result<Started, Failure> {
    let core = Core::start_list(&list.jobs()).map_err(|refusal| list.refused(refusal))?;
    let name = |task: u8| list.listed.get(usize::from(task))?.name.clone();
    let tasks = core.tasks().iter().map(|task| Task {
        number: task.number,
        period: task.period,
        budget: task.budget,
        within: task.period,
        stroke: task.stroke,
        name: name(task.number),
    });
    Ok(Started {
        origin: Origin::Bench,
        tasks: tasks.collect(),
        core,
    })
}

/// Names tasks by a job list, which must have the same tasks.
pub fn name<'a>(
    tasks: impl IntoIterator<Item = &'a mut Task>,
    list: &JobList,
) -> Result<(), Failure> {
    for task in tasks {
        let number = usize::from(task.number);
        let Some(listed) = list.listed.get(number) else {
            return Err(Failure::new(format!(
                "{}: it names {}, and there is a task {number}: it is another job list",
                list.file,
                wording::counted(list.listed.len() as u64, "job")
            )));
        };
        if (listed.job.period, listed.job.budget) != (task.period, task.budget) {
            return Err(Failure::new(format!(
                "{}: {} has period {} and budget {} here, and period {} and budget {} in what is run: it is another job list",
                list.place(number),
                list.task(number),
                listed.job.period,
                listed.job.budget,
                task.period,
                task.budget
            )));
        }
        task.name.clone_from(&listed.name);
    }
    Ok(())
}
