//! The margin of each job of a list.

use crate::session::{hex, same, Session};
use inputs::*;

pub fn must_have_seen(session: &Session) {
    let (none, task) = ("place 0", "a task above 0");
    session.must_have_seen("margin", &[(4, none), (5, none), (7, task), (8, task)]);
    session.must_have_seen("margin", &[(17, NO_TASKS), (17, THE_COUNT), (17, FAR)]);
    session.must_have_seen("margin", &[(0, BELOW_ZERO), (0, ZERO), (0, ABOVE_ZERO)]);
    session.must_have_seen("margin", &[(0, TIED), (0, FULL), (0, SIXTY_FOUR)]);
}

const NO_TASKS: &str = "a list without tasks";
const THE_COUNT: &str = "the number of tasks";
const FAR: &str = "a number in range in its low bits only";
const BELOW_ZERO: &str = "a margin below zero";
const ZERO: &str = "a margin of zero";
const ABOVE_ZERO: &str = "a margin above zero";
const TIED: &str = "a task below one of the same period";
const FULL: &str = "the last task of a list that takes all of the time";
const SIXTY_FOUR: &str = "a task of sixty-four";

pub fn round(session: &mut Session, rng: &mut Rng) {
    // lists of every length, over 64 entries too
    for length in 0..=300usize {
        let mut list = job_list(rng, length.div_ceil(4));
        list.truncate(length);
        let number = any_number(rng, length as u64 / 4);
        margin(session, &list, number);
    }
    for kind in 0..JOB_DAMAGES {
        for _ in 0..20 {
            let count = rng.index(65);
            let list = job_list(rng, count);
            let list = damaged_jobs(rng, &list, kind);
            let number = any_number(rng, list.len() as u64 / 4);
            margin(session, &list, number);
        }
    }
    // every task of short lists, and of a long one with short periods
    for turn in 0..200 {
        let count = if turn == 0 { 64 } else { rng.range(1, 8) };
        let longest = rng.pick(&[8, 40, 300]);
        let (list, _) = tight_list(rng, count as usize, longest);
        for number in (0..=count).chain([u64::MAX]) {
            margin(session, &list, number);
        }
    }
    // the last task by priority of long lists, some of them with long periods
    for turn in 0..20 {
        let any = rng.range(9, 64) as usize;
        let count = rng.pick(&[any, 64]);
        let longest = if turn < 3 { 60_000 } else { 2000 };
        let (list, last) = tight_list(rng, count, longest);
        margin(session, &list, last);
    }
}

/// Compare the margin of the task with this number.
fn margin(session: &mut Session, list: &[u8], number: u64) {
    let reference = reference::margin(list, number);
    let library = binding::margin(list, number);
    let input = || format!("jobs {} number {number}", hex(list));
    same("margin", input, &reference, &library);
    let accepted = match reference.margin {
        ..0 => BELOW_ZERO,
        0 => ZERO,
        1.. => ABOVE_ZERO,
    };
    session.case("margin", reference.refusal, reference.place, accepted);
    match reference.refusal {
        0 => kinds_of_task(session, list, number as usize),
        17 => kinds_of_number(session, list.len() as u64 / 4, number),
        _ => {}
    }
}

fn kinds_of_number(session: &mut Session, count: u64, number: u64) {
    if count == 0 {
        session.saw("margin", (17, NO_TASKS));
    } else if number == count {
        session.saw("margin", (17, THE_COUNT));
    } else if number % 256 < count {
        session.saw("margin", (17, FAR));
    }
}

fn kinds_of_task(session: &mut Session, list: &[u8], task: usize) {
    let word = |at: usize| u16::from_le_bytes([list[at], list[at + 1]]) as u64;
    let jobs: Vec<(u64, u64)> = (0..list.len() / 4)
        .map(|i| (word(4 * i), word(4 * i + 2)))
        .collect();
    let (period, _) = jobs[task];
    if jobs[..task].iter().any(|job| job.0 == period) {
        session.saw("margin", (0, TIED));
    }
    // all periods go into this one, so the last task is one of this period
    let whole = jobs.iter().all(|job| period.is_multiple_of(job.0));
    let last = jobs[task + 1..].iter().all(|job| job.0 < period);
    if whole && last && jobs.iter().map(|&(p, e)| e * (period / p)).sum::<u64>() == period {
        session.saw("margin", (0, FULL));
    }
    if jobs.len() == 64 {
        session.saw("margin", (0, SIXTY_FOUR));
    }
}
