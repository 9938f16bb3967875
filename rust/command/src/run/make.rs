//! The runs that the arguments ask for.

use std::ffi::OsStr;

use super::cores::{self, Started};
use crate::args::{flag, valued, Args, OptionSpec};
use crate::failure::Failure;
use crate::files::read_front;
use crate::jobs::JobList;
use crate::list::FRONT;
use crate::log::reader::{Calls, Part, Told};
use crate::log::{Answer, Log, Origin, Task};
use crate::replace::not_an_input;
use crate::wording::counted;

/// What says which runs are made.
pub const OPTIONS: &[OptionSpec] = &[
    valued("--core", "K"),
    valued("--ticks", "N"),
    flag("--earliest"),
    valued("--random", "SEED"),
    valued("--calls", "FILE"),
    valued("--names", "JOBS"),
    flag("--bench"),
];

/// Ticks that a run has at most.
const MOST_TICKS: u64 = 100_000;

/// Differences that are told one by one.
const MOST_DIFFERENCES: usize = 10;

/// Logs of cores, and where told answers are not the library's, in sentences.
pub struct Made {
    pub logs: Vec<Log>,
    pub differences: Vec<String>,
}

/// Runs what the file of the arguments has.
pub fn runs(args: &Args) -> Result<Made, Failure> {
    let path = args.one_file(match args.has("--bench") {
        true => "job list",
        false => "sheet",
    })?;
    once_standard_input(args)?;
    match args.has("--bench") {
        true => bench(args, path),
        false => of_bytes(args, path, &read_front(path, FRONT)?),
    }
}

/// Runs the cores of a sheet that was read.
pub fn of_bytes(args: &Args, path: &OsStr, bytes: &[u8]) -> Result<Made, Failure> {
    looked_at(args)?;
    let only = args.number("--core", 0, 255)?.map(|core| core as u8);
    let (mut started, tasks) = cores::of_sheet(path, bytes, only)?;
    let all = started.iter_mut().flat_map(|started| &mut started.tasks);
    named(args, all, Some(tasks))?;
    drive(args, started)
}

/// Runs a job list on the bench.
pub fn bench(args: &Args, path: &OsStr) -> Result<Made, Failure> {
    looked_at(args)?;
    args.at_most_one(&["--bench", "--core"])?;
    let list = JobList::read(path)?;
    let mut started = vec![cores::of_list(&list)?];
    let all = started.iter_mut().flat_map(|started| &mut started.tasks);
    named(args, all, Some(list.listed.len()))?;
    drive(args, started)
}

/// Names tasks by the job list of `--names`, if it is there. It has so many jobs, where that is known.
pub fn named<'a>(
    args: &Args,
    tasks: impl IntoIterator<Item = &'a mut Task>,
    count: Option<usize>,
) -> Result<(), Failure> {
    let Some(path) = args.value("--names") else {
        return Ok(());
    };
    let list = JobList::read(path)?;
    let jobs = list.listed.len();
    match count {
        Some(count) if count != jobs => Err(Failure::new(format!(
            "{}: it has {}, and what is run has {}: it is another job list",
            list.file,
            counted(jobs as u64, "job"),
            counted(count as u64, "task")
        ))),
        _ => cores::name(tasks, &list),
    }
}

/// The files that are read.
fn inputs(args: &Args) -> [Option<&OsStr>; 3] {
    let path = args.files.first().map(|path| path.as_os_str());
    [path, args.value("--calls"), args.value("--names")]
}

/// What is written takes the place of no file that is read.
pub fn keeps_inputs(args: &Args) -> Result<(), Failure> {
    not_an_input(args.value("-o").unwrap_or_default(), &inputs(args))
}

/// Standard input is read once.
pub fn once_standard_input(args: &Args) -> Result<(), Failure> {
    let inputs = inputs(args);
    let inputs = inputs.iter().filter(|&&name| name == Some(OsStr::new("-")));
    match inputs.count() {
        0 | 1 => Ok(()),
        _ => Err(Failure::new("standard input is named twice")),
    }
}

/// The options that do not depend on a file.
fn looked_at(args: &Args) -> Result<(), Failure> {
    args.at_most_one(&["--earliest", "--random", "--calls"])?;
    args.at_most_one(&["--ticks", "--calls"])?;
    args.number("--ticks", 1, MOST_TICKS)?;
    args.number("--random", 0, u64::MAX)?;
    Ok(())
}

fn drive(args: &Args, started: Vec<Started>) -> Result<Made, Failure> {
    if let Some(path) = args.value("--calls") {
        return told(&Calls::read(path)?, started, args.has("--core"));
    }
    let ticks = args.number("--ticks", 1, MOST_TICKS)?;
    let ticks = ticks.map_or_else(|| enough(&started), |ticks| ticks as usize);
    let seed = args.number("--random", 0, u64::MAX)?;
    let run = |core: Started| {
        core.run(|driver| match seed {
            Some(seed) => driver.random(ticks, seed),
            None => driver.earliest(ticks),
        })
    };
    Ok(Made {
        logs: started.into_iter().map(run).collect(),
        differences: Vec::new(),
    })
}

/// Twice the longest period, from 40 to 2,000.
fn enough(started: &[Started]) -> usize {
    let tasks = started.iter().flat_map(|started| &started.tasks);
    let longest = tasks.map(|task| task.period).max().unwrap_or(0);
    (2 * usize::from(longest)).clamp(40, 2_000)
}

/// Runs of the calls that are told, on the cores that they are told of.
fn told(calls: &Calls, started: Vec<Started>, one_core: bool) -> Result<Made, Failure> {
    let mut started = started;
    let mut logs = Vec::new();
    let mut differences = Differences::default();
    for part in calls.parts.iter().filter(|part| !part.is_empty()) {
        let Some(mut core) = core_of(calls, part, &mut started, one_core)? else {
            continue;
        };
        same_tasks(calls, part, &mut core.tasks)?;
        let differs = |told: &Told, answer| differences.add(|| difference(calls, told, answer));
        logs.push(core.run(|driver| driver.told(&part.calls, differs)));
    }
    if let (true, [core]) = (one_core, started.as_slice()) {
        let (file, what) = (&calls.file, core.origin.line());
        return Err(Failure::new(format!("{file}: there is no line `{what}`")));
    }
    if logs.is_empty() && !started.is_empty() {
        return Err(Failure::new(format!("{}: it has no calls", calls.file)));
    }
    let differences = differences.sentences();
    Ok(Made { logs, differences })
}

/// The core of a part, taken out of those that were started; none where another core alone is run.
fn core_of(
    calls: &Calls,
    part: &Part,
    started: &mut Vec<Started>,
    one_core: bool,
) -> Result<Option<Started>, Failure> {
    let Some((origin, line)) = part.origin else {
        return match started.len() {
            1 => Ok(started.pop()),
            0 => Err(calls.wrong(part.line(), "the sheet has no core to run the calls on")),
            cores => Err(calls.wrong(
                part.line(),
                &format!("no line `core K` says whose calls these are, and the sheet has {cores} cores; --core K says it too"),
            )),
        };
    };
    let place = started.iter().position(|core| core.origin == origin);
    match place {
        Some(place) => Ok(Some(started.remove(place))),
        None if one_core && matches!(origin, Origin::Core(_)) => Ok(None),
        None => {
            let what = origin.line();
            Err(calls.wrong(line, &format!("there is no `{what}` in what is run")))
        }
    }
}

/// The tasks that the calls tell of are those of the core, which take their names from there if they have none.
fn same_tasks(calls: &Calls, part: &Part, tasks: &mut [Task]) -> Result<(), Failure> {
    let figures = |task: &Task| {
        let Task { number, period, .. } = *task;
        (number, period, task.budget, task.within, task.stroke)
    };
    for (told, line) in &part.tasks {
        let Some(task) = tasks.iter_mut().find(|task| figures(task) == figures(told)) else {
            let text = format!(
                "task {} with these figures is not on this core: the log is of another sheet",
                told.number
            );
            return Err(calls.wrong(*line, &text));
        };
        if task.name.is_none() {
            task.name.clone_from(&told.name);
        }
    }
    Ok(())
}

/// Answers that are told and are not the library's: the first of them in sentences, and how many there are.
#[derive(Default)]
struct Differences {
    first: Vec<String>,
    count: usize,
}

impl Differences {
    fn add(&mut self, sentence: impl FnOnce() -> String) {
        self.count += 1;
        if self.first.len() < MOST_DIFFERENCES {
            self.first.push(sentence());
        }
    }

    fn sentences(mut self) -> Vec<String> {
        let more = self.count - self.first.len();
        if more > 0 {
            let more = match more {
                1 => "and 1 more answer is not the library's".to_owned(),
                _ => format!("and {more} more answers are not the library's"),
            };
            self.first.push(more);
        }
        self.first
    }
}

fn difference(calls: &Calls, told: &Told, answer: Answer) -> String {
    let said = told.answer.map_or_else(String::new, Answer::text);
    let answer = answer.text();
    let (file, line) = (&calls.file, told.line);
    format!("{file}, line {line}: the log says `{said}`, and the library answers `{answer}`")
}
