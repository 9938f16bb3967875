//! A job that finds no core: which one, and how full the cores are.

use homvaits::{Job, Place, Refusal, Sheet};

use super::tasks_on;
use crate::failure::Failure;
use crate::jobs::JobList;
use crate::table::{Side, Table};
use crate::wording::{counted, joined};

/// Why no plan was found: the job by its line, and the cores as they were when its turn came.
pub fn told(list: &JobList, limit: u8, start: usize, refusal: Refusal) -> Failure {
    let Place::Task(task) = refusal.place else {
        return list.refused(refusal);
    };
    let task = usize::from(task);
    let jobs = list.jobs();
    let needs = match jobs.get(task) {
        Some(Job { period, budget }) => {
            format!(", {} every {period}", counted((*budget).into(), "tick"))
        }
        None => String::new(),
    };
    let mut lines = vec![format!(
        "{}: refused 15 (No fit): no core takes {}{needs}",
        list.place(task),
        list.task(task)
    )];
    if let Some((numbers, sheet)) = before(&jobs, limit, start, task) {
        lines.push("the cores when its turn came (load in thousandths):".to_owned());
        lines.extend(cores(&numbers, &sheet).lines());
    }
    let hint = match limit {
        0 => "the core limit is 0: allow a core (--cores)",
        8 => "try another start (--all-starts), or lower a budget",
        _ => "allow more cores (--cores), try another start (--all-starts), or lower a budget",
    };
    lines.push(hint.to_owned());
    Failure::refused(lines.join("\n"))
}

/// The positions of the ring: the jobs by p / P, with P the largest power of two not above p, ties to the lower number.
fn ring(jobs: &[Job]) -> Vec<usize> {
    let mut ring: Vec<usize> = (0..jobs.len()).collect();
    ring.sort_by_key(|&task| {
        let period = jobs[task].period;
        period.checked_shl(period.leading_zeros()).unwrap_or(0)
    });
    ring
}

/// The library's plan of the jobs whose turn came before that of `task`, and their numbers. Among themselves they have the order and
/// the ties that they have in the whole list, so each goes to the core that it went to there. None where they have no plan or no core.
pub fn before(jobs: &[Job], limit: u8, start: usize, task: usize) -> Option<(Vec<usize>, Sheet)> {
    let ring = ring(jobs);
    let (front, back) = ring.split_at_checked(start)?;
    let walked = back.iter().chain(front).take_while(|&&next| next != task);
    let mut numbers: Vec<usize> = walked.copied().collect();
    let skipped = numbers.iter().filter(|number| front.contains(number));
    let start = skipped.count();
    numbers.sort_unstable();
    let earlier: Vec<Job> = numbers.iter().map(|&number| jobs[number]).collect();
    let sheet = homvaits::plan(&earlier, limit, start).ok()?;
    (limit > 0).then_some((numbers, sheet))
}

/// The load of each core, and its tasks by their numbers in the whole list.
fn cores(numbers: &[usize], sheet: &Sheet) -> Table {
    let mut table = Table::new(&[
        ("core", Side::Right),
        ("load", Side::Right),
        ("tasks", Side::Left),
    ]);
    for core in sheet.cores() {
        let own = tasks_on(sheet, core.number).into_iter();
        let tasks: Vec<usize> = own
            .filter_map(|task| numbers.get(usize::from(task)).copied())
            .collect();
        table.row(vec![
            core.number.to_string(),
            core.load.to_string(),
            joined(&tasks),
        ]);
    }
    table
}

#[cfg(test)]
mod tests {
    use super::*;
    use crate::rng::Rng;
    use homvaits::{plan, Word};

    fn job(period: u16, budget: u16) -> Job {
        Job { period, budget }
    }

    #[test]
    fn the_ring_of_the_specification() {
        assert_eq!(ring(&[job(7, 1), job(16, 1), job(21, 1)]), [1, 2, 0]);
        assert_eq!(ring(&[job(8, 1), job(4, 1), job(2, 1)]), [0, 1, 2]);
    }

    /// Jobs that are many for their cores.
    fn jobs(rng: &mut Rng, count: u64) -> Vec<Job> {
        let any = |_| {
            let period = rng.range(1, 40);
            job(period as u16, rng.range(1, period.div_ceil(2)) as u16)
        };
        (0..count).map(any).collect()
    }

    /// The jobs before the one without a core have a plan on all cores that are allowed, and with it they have none.
    #[test]
    fn the_jobs_before_it_fill_the_cores() {
        let mut rng = Rng(1);
        let mut refused = 0;
        for round in 0..3_000 {
            let jobs = jobs(&mut rng, 2 + round % 9);
            let (limit, start) = (1 + (round % 3) as u8, round as usize % jobs.len());
            let Err(refusal) = plan(&jobs, limit, start) else {
                continue;
            };
            assert_eq!(refusal.word, Word::NoFit);
            let task = refusal.place.number() as usize;
            let (numbers, sheet) = before(&jobs, limit, start, task).unwrap();
            assert_eq!(sheet.cores().len(), usize::from(limit));
            assert!(!numbers.contains(&task));
            let mut with = numbers.clone();
            with.push(task);
            with.sort_unstable();
            let all: Vec<Job> = with.iter().map(|&number| jobs[number]).collect();
            // the walk of these begins at the first of them that the whole walk comes to
            let ring = ring(&jobs);
            let skipped = ring[..start]
                .iter()
                .filter(|number| with.contains(number))
                .count();
            let refusal = plan(&all, limit, skipped % all.len()).unwrap_err();
            assert_eq!(with[refusal.place.number() as usize], task);
            refused += 1;
        }
        assert!(refused > 300, "{refused}");
    }
}
