//! `homvaits plan`: a sheet from a job list.

mod no_fit;
mod starts;

use std::ffi::OsStr;

use homvaits::{Refusal, Sheet, Word};

use crate::args::{flag, valued, Args, OptionSpec};
use crate::failure::{Failure, Outcome, WELL};
use crate::files::shown;
use crate::jobs::JobList;
use crate::out::Out;
use crate::replace::{not_an_input, not_to_terminal, replace};
use crate::table::{Side, Table};
use crate::wording::{counted, joined};

pub const OPTIONS: &[OptionSpec] = &[
    valued("-o", "SHEET"),
    valued("--cores", "N"),
    valued("--start", "K"),
    flag("--all-starts"),
];

pub fn plan(args: &Args, out: &mut Out) -> Outcome {
    args.at_most_one(&["--start", "--all-starts"])?;
    let limit = args.number("--cores", 0, 8)?.unwrap_or(8) as u8;
    let start = args.number("--start", 0, u32::MAX.into())?.unwrap_or(0) as usize;
    let path = args.one_file("job list")?;
    let to = args.value("-o");
    not_to_terminal(to.unwrap_or_default())?;
    not_an_input(to.unwrap_or_default(), &[Some(path)])?;
    let list = JobList::read(path)?;
    let mut words = Vec::new();
    let planned = match args.has("--all-starts") {
        true => starts::best(&list, limit, &mut words),
        false => one(&list, limit, start),
    };
    if to != Some(OsStr::new("-")) {
        words.iter().for_each(|line| out.line(line));
    }
    let (sheet, start) = planned?;
    match to {
        Some(to) if to == "-" => out.write(sheet.as_bytes()),
        _ => {
            told(&list, &sheet, start, out);
            if let Some(to) = to {
                replace(to, sheet.as_bytes())?;
                let (version, bytes) = (sheet.version(), sheet.as_bytes().len());
                out.line(&format!("{}: version {version}, {bytes} bytes", shown(to)));
            }
        }
    }
    Ok(WELL)
}

/// The plan from one start, with the start.
fn one(list: &JobList, limit: u8, start: usize) -> Result<(Sheet, usize), Failure> {
    let sheet = homvaits::plan(&list.jobs(), limit, start);
    let sheet = sheet.map_err(|refusal| refused(list, limit, start, refusal))?;
    Ok((sheet, start))
}

fn refused(list: &JobList, limit: u8, start: usize, refusal: Refusal) -> Failure {
    match refusal.word {
        Word::Start => {
            let jobs = list.listed.len();
            let right = match jobs {
                0 => "the list is empty, so a start is 0".to_owned(),
                1 => "the list has 1 job, so a start is 0".to_owned(),
                _ => format!("the list has {jobs} jobs, so a start is 0 to {}", jobs - 1),
            };
            Failure::new(format!("there is no start {start}: {right}"))
        }
        Word::NoFit => no_fit::told(list, limit, start, refusal),
        _ => list.refused(refusal),
    }
}

/// The plan in words.
fn told(list: &JobList, sheet: &Sheet, start: usize, out: &mut Out) {
    let mut tasks = Table::new(&[
        ("task", Side::Right),
        ("name", Side::Left),
        ("line", Side::Right),
        ("core", Side::Right),
        ("period", Side::Right),
        ("budget", Side::Right),
        ("factor", Side::Right),
        ("within", Side::Right),
    ]);
    for (task, listed) in sheet.tasks().zip(&list.listed) {
        tasks.row(vec![
            task.number.to_string(),
            listed.name.clone().unwrap_or_default(),
            listed.line.to_string(),
            task.core.to_string(),
            task.period.to_string(),
            task.budget.to_string(),
            task.factor.to_string(),
            task.within.to_string(),
        ]);
    }
    let count = sheet.tasks().len();
    if count > 0 {
        tasks.lines().iter().for_each(|line| out.line(line));
        cores(sheet).lines().iter().for_each(|line| out.line(line));
    }
    out.line(&format!(
        "{}: {} on {}, planned from start {start}",
        list.file,
        counted(count as u64, "task"),
        counted(sheet.cores().len() as u64, "core")
    ));
}

/// The cores of a plan, each with its tasks.
fn cores(sheet: &Sheet) -> Table {
    let mut table = Table::new(&[
        ("core", Side::Right),
        ("pivot", Side::Right),
        ("divisor", Side::Right),
        ("load", Side::Right),
        ("tasks", Side::Left),
    ]);
    for core in sheet.cores() {
        table.row(vec![
            core.number.to_string(),
            core.pivot.to_string(),
            core.divisor.to_string(),
            core.load.to_string(),
            joined(&tasks_on(sheet, core.number)),
        ]);
    }
    table
}

/// The numbers of the tasks on a core.
fn tasks_on(sheet: &Sheet, core: u8) -> Vec<u8> {
    let own = sheet.tasks().filter(|task| task.core == core);
    own.map(|task| task.number).collect()
}
