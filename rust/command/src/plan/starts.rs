//! Every start of a job list.

use homvaits::{Refusal, Sheet, Word};

use super::no_fit::before;
use crate::failure::Failure;
use crate::jobs::JobList;
use crate::table::{Side, Table};
use crate::wording::{counted, joined};

/// The plan that needs the fewest cores, from the first start that gives one, with that start. What each start gives goes to `lines`.
pub fn best(list: &JobList, limit: u8, lines: &mut Vec<String>) -> Result<(Sheet, usize), Failure> {
    let jobs = list.jobs();
    let plans: Vec<Result<Sheet, Refusal>> = (0..jobs.len().max(1))
        .map(|start| homvaits::plan(&jobs, limit, start))
        .collect();
    // a list that is wrong is refused from every start
    let wrong = plans.iter().find_map(|plan| match plan {
        Err(refusal) if refusal.word != Word::NoFit => Some(*refusal),
        _ => None,
    });
    if let Some(refusal) = wrong {
        return Err(list.refused(refusal));
    }
    lines.extend(table(list, limit, &plans).lines());
    let planned = plans.iter().enumerate();
    let planned = planned.filter_map(|(start, plan)| Some((start, plan.as_ref().ok()?)));
    // of several the first
    let best = planned.clone().min_by_key(|(_, sheet)| sheet.cores().len());
    let Some((start, sheet)) = best else {
        return Err(no_plan(list, plans.len(), limit));
    };
    let fewest = sheet.cores().len();
    let few = planned.filter(|(_, sheet)| sheet.cores().len() == fewest);
    let starts: Vec<usize> = few.map(|(start, _)| start).collect();
    lines.push(match starts.as_slice() {
        [start] => format!("the fewest cores: {fewest}, from start {start}"),
        _ => format!(
            "the fewest cores: {fewest}, from the starts {}",
            joined(&starts)
        ),
    });
    Ok((sheet.clone(), start))
}

fn no_plan(list: &JobList, starts: usize, limit: u8) -> Failure {
    let none = match starts {
        1 => "the only start gives no plan".to_owned(),
        _ => format!("none of the {starts} starts gives a plan"),
    };
    let (file, cores) = (&list.file, at_most(limit));
    Failure::refused(format!("{file}: refused 15 (No fit): {none} on {cores}"))
}

fn at_most(limit: u8) -> String {
    match limit {
        0 => "0 cores".to_owned(),
        _ => format!("at most {}", counted(limit.into(), "core")),
    }
}

/// What each start gives: the loads of its cores, or of those that were there when a job found none.
fn table(list: &JobList, limit: u8, plans: &[Result<Sheet, Refusal>]) -> Table {
    let mut table = Table::new(&[
        ("start", Side::Right),
        ("cores", Side::Right),
        ("loads", Side::Left),
        ("no core takes", Side::Left),
    ]);
    let jobs = list.jobs();
    for (start, plan) in plans.iter().enumerate() {
        let start_words = start.to_string();
        table.row(match plan {
            Ok(sheet) => {
                let cores = sheet.cores().len().to_string();
                vec![start_words, cores, loads(sheet), String::new()]
            }
            Err(refusal) => {
                let task = refusal.place.number() as usize;
                let cores = before(&jobs, limit, start, task);
                let loads = cores.map_or_else(String::new, |(_, sheet)| loads(&sheet));
                vec![start_words, "-".to_owned(), loads, named(list, task)]
            }
        });
    }
    table
}

fn loads(sheet: &Sheet) -> String {
    let loads: Vec<u16> = sheet.cores().map(|core| core.load).collect();
    joined(&loads)
}

/// A task by its line, number and name.
fn named(list: &JobList, task: usize) -> String {
    match list.listed.get(task) {
        Some(listed) => format!("line {}, {}", listed.line, list.task(task)),
        None => list.task(task),
    }
}
