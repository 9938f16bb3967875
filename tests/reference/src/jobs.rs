//! The job list: 4-byte entries (p, e).

use crate::sheet::number;
use crate::{refuse_at, refuse_if, Outcome, LONGEST_PERIOD, MOST_CORES, MOST_TASKS};

#[derive(Clone, Copy, Debug, PartialEq, Eq)]
pub struct Job {
    pub period: u64,
    pub budget: u64,
}

/// The jobs of a list, or refusal 5, 4, 7 or 8. Where there is no core limit
/// the caller gives 0.
pub fn read(list: &[u8], limit: u64) -> Outcome<Vec<Job>> {
    refuse_if(5, !list.len().is_multiple_of(4))?;
    refuse_if(4, list.len() / 4 > MOST_TASKS || limit > MOST_CORES as u64)?;
    let jobs: Vec<Job> = list
        .chunks(4)
        .map(|entry| Job {
            period: number(&entry[0..2]),
            budget: number(&entry[2..4]),
        })
        .collect();
    let bad_period = |job: &Job| !(1..=LONGEST_PERIOD).contains(&job.period);
    let bad_budget = |job: &Job| !(1..=job.period).contains(&job.budget);
    refuse_at(7, jobs.iter().position(bad_period))?;
    refuse_at(8, jobs.iter().position(bad_budget))?;
    Ok(jobs)
}

/// The job numbers in priority order: shorter period first, then lower number.
pub fn by_priority(jobs: &[Job]) -> Vec<usize> {
    let mut numbers: Vec<usize> = (0..jobs.len()).collect();
    numbers.sort_by_key(|&i| (jobs[i].period, i));
    numbers
}
