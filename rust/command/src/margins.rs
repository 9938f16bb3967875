//! `homvaits margins`: what the jobs of a list have to spare on one core.

use homvaits::{margin, Core, Refusal};

use crate::args::Args;
use crate::failure::{Outcome, REFUSED, WELL};
use crate::jobs::JobList;
use crate::out::Out;
use crate::table::{Side, Table};
use crate::wording::counted;

pub fn margins(args: &Args, out: &mut Out) -> Outcome {
    let list = JobList::read(args.one_file("job list")?)?;
    let margins = all(&list).map_err(|refusal| list.refused(refusal))?;
    let mut table = Table::new(&[
        ("task", Side::Right),
        ("name", Side::Left),
        ("line", Side::Right),
        ("period", Side::Right),
        ("budget", Side::Right),
        ("margin", Side::Right),
    ]);
    for (task, (listed, margin)) in list.listed.iter().zip(&margins).enumerate() {
        table.row(vec![
            task.to_string(),
            listed.name.clone().unwrap_or_default(),
            listed.line.to_string(),
            listed.job.period.to_string(),
            listed.job.budget.to_string(),
            margin.to_string(),
        ]);
    }
    if !margins.is_empty() {
        table.lines().iter().for_each(|line| out.line(line));
    }
    let below = margins.iter().filter(|&&margin| margin < 0).count();
    let jobs = counted(margins.len() as u64, "job");
    out.line(&match below {
        0 => format!("{jobs} on one core: no job is ever late"),
        1 => {
            format!("{jobs} on one core: a margin is below zero, so a job of the list can be late")
        }
        _ => format!(
            "{jobs} on one core: {below} margins are below zero, so a job of the list can be late"
        ),
    });
    Ok(if below == 0 { WELL } else { REFUSED })
}

fn all(list: &JobList) -> Result<Vec<i32>, Refusal> {
    let jobs = list.jobs();
    // an empty list has no task to ask for, and a wrong one is refused as by every task
    Core::start_list(&jobs)?;
    (0..jobs.len())
        .map(|task| margin(&jobs, task as u8))
        .collect()
}
