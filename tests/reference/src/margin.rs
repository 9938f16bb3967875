//! The margin: how many ticks a job of a bench list has to spare.

use crate::jobs::{self, Job};
use crate::{refuse_if, MarginAnswer, Outcome};

/// The margin of a task of a job list: 5, 4, 7, 8, then 17.
pub fn margin(list: &[u8], number: u64) -> MarginAnswer {
    match margin_of_number(list, number) {
        Err(refusal) => refusal.into(),
        Ok(margin) => MarginAnswer {
            margin: margin as i32,
            ..MarginAnswer::default()
        },
    }
}

fn margin_of_number(list: &[u8], number: u64) -> Outcome<i64> {
    let jobs = jobs::read(list, 0)?;
    refuse_if(17, number >= jobs.len() as u64)?;
    Ok(margin_of(&jobs, number as usize))
}

/// The period minus the smallest t from 1 to the period whose demand is at most
/// t; where there is none, the period minus the demand at the period.
fn margin_of(jobs: &[Job], task: usize) -> i64 {
    let period = jobs[task].period as i64;
    match (1..=period).find(|&t| demand(jobs, task, t) <= t) {
        Some(t) => period - t,
        None => period - demand(jobs, task, period),
    }
}

/// The task's budget, plus for each task above it the budget times (t / p
/// rounded up).
fn demand(jobs: &[Job], task: usize, t: i64) -> i64 {
    let mut demand = jobs[task].budget;
    for (other, job) in jobs.iter().enumerate() {
        if is_above(jobs, other, task) {
            demand += job.budget * (t as u64).div_ceil(job.period);
        }
    }
    demand as i64
}

/// A shorter period, or the same one and a lower place in the list.
fn is_above(jobs: &[Job], other: usize, task: usize) -> bool {
    let (p, q) = (jobs[other].period, jobs[task].period);
    p < q || p == q && other < task
}
