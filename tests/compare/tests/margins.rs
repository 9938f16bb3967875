//! What the margins of a list tell of its runs, on every run of every list of
//! up to three jobs with short periods; and the paper's count of partitions.

#[path = "../../reference/tests/ten_tasks/mod.rs"]
mod ten_tasks;

use reference::{Core, CoreAnswer, MarginAnswer, TickAnswer};
use std::collections::HashSet;
use ten_tasks::{counts, never_late, EXACT};

/// The calls on the bench, of the library or of the reference.
#[derive(Clone, Copy)]
struct Bench {
    start_list: fn(&[u8]) -> CoreAnswer,
    release: fn(Core, u64) -> CoreAnswer,
    finish: fn(Core, u64) -> CoreAnswer,
    tick: fn(Core) -> TickAnswer,
    margin: fn(&[u8], u64) -> MarginAnswer,
}

const LIBRARY: Bench = Bench {
    start_list: binding::start_list,
    release: binding::release,
    finish: binding::finish,
    tick: binding::tick,
    margin: binding::margin,
};

const REFERENCE: Bench = Bench {
    start_list: reference::start_list,
    release: reference::release,
    finish: reference::finish,
    tick: reference::tick,
    margin: reference::margin,
};

type Job = (u16, u16);

fn bytes(jobs: &[Job]) -> Vec<u8> {
    let entry = |&(p, e): &Job| [p.to_le_bytes(), e.to_le_bytes()].concat();
    jobs.iter().flat_map(entry).collect()
}

/// Up to three jobs.
const MOST: usize = 3;

/// A state that a run has come to.
#[derive(Clone, Copy)]
struct Moment {
    core: Core,
    /// For each task the ticks since its last release, up to the period, which
    /// it also is before the first.
    since: [u16; MOST],
}

impl Moment {
    fn left(&self, number: usize) -> u16 {
        let tasks = self.core.used().iter();
        let mut named = tasks.filter(|task| task.number as usize == number);
        named.next().expect("the task is on the core").left
    }

    /// What tells it from others: ticks since and ticks left, all below 256.
    fn key(&self, jobs: &[Job]) -> u64 {
        (0..jobs.len()).fold(0, |key, i| {
            key << 16 | (self.since[i] as u64) << 8 | self.left(i) as u64
        })
    }
}

/// For each task the most ticks, in any run from the bench start, that a job
/// of it takes from its release until it has had its budget, or none if some
/// run leaves a job of it pending once its period has passed since its release.
/// With `stop` not all runs are gone through once there is one such task.
fn longest(bench: &Bench, jobs: &[Job], stop: bool) -> Vec<Option<u16>> {
    let start = (bench.start_list)(&bytes(jobs));
    assert_eq!(start.refusal, 0);
    let mut since = [0; MOST];
    for (since, job) in since.iter_mut().zip(jobs) {
        *since = job.0;
    }
    let fresh = Moment {
        core: start.core,
        since,
    };
    let mut longest = vec![Some(0); jobs.len()];
    let mut seen = HashSet::from([fresh.key(jobs)]);
    let mut ahead = vec![fresh];
    while let Some(now) = ahead.pop() {
        let mut go = |next: Moment| {
            if seen.insert(next.key(jobs)) {
                ahead.push(next);
            }
        };
        for number in 0..jobs.len() {
            let release = (bench.release)(now.core, number as u64);
            if release.refusal == 0 {
                let mut next = now;
                next.core = release.core;
                next.since[number] = 0;
                go(next);
            }
            let finish = (bench.finish)(now.core, number as u64);
            if finish.refusal == 0 {
                go(Moment {
                    core: finish.core,
                    ..now
                });
            }
        }
        let mut next = now;
        next.core = (bench.tick)(now.core).core;
        for (i, &(period, _)) in jobs.iter().enumerate() {
            next.since[i] = (now.since[i] + 1).min(period);
            if next.left(i) > 0 && next.since[i] == period {
                longest[i] = None;
            }
            if now.left(i) > 0 && next.left(i) == 0 {
                longest[i] = longest[i].map(|ticks: u16| ticks.max(next.since[i]));
            }
        }
        if stop && longest.contains(&None) {
            return longest;
        }
        go(next);
    }
    longest
}

fn margins(bench: &Bench, jobs: &[Job]) -> Vec<i32> {
    let list = bytes(jobs);
    let margin = |number: usize| {
        let answer = (bench.margin)(&list, number as u64);
        assert_eq!((answer.refusal, answer.place), (0, 0));
        answer.margin
    };
    (0..jobs.len()).map(margin).collect()
}

/// What the longest job of a task leaves of its period.
fn to_spare(job: &Job, longest: Option<u16>) -> Option<i32> {
    longest.map(|ticks| job.0 as i32 - ticks as i32)
}

/// All margins are zero or more exactly when no run leaves a job pending once
/// its period has passed. Then each margin is what the longest job of its task
/// leaves of the period.
fn told(bench: &Bench, jobs: &[Job]) -> Result<bool, String> {
    let margins = margins(bench, jobs);
    let found = longest(bench, jobs, true);
    let rest = |(job, ticks)| to_spare(job, ticks);
    let found: Option<Vec<i32>> = jobs.iter().zip(found).map(rest).collect();
    let on_time = margins.iter().all(|&margin| margin >= 0);
    if on_time != found.is_some() || found.as_ref().is_some_and(|found| *found != margins) {
        return Err(format!("{jobs:?}: margins {margins:?}, runs {found:?}"));
    }
    Ok(on_time)
}

/// All jobs with periods up to `longest`.
fn all_jobs(longest: u16) -> Vec<Job> {
    let of = |p| (1..=p).map(move |e| (p, e));
    (1..=longest).flat_map(of).collect()
}

/// All lists of so many jobs, in every order, with periods up to `longest`.
fn all_lists(count: usize, longest: u16) -> Vec<Vec<Job>> {
    let mut lists = vec![vec![]];
    for _ in 0..count {
        let longer = |list: Vec<Job>| {
            all_jobs(longest)
                .into_iter()
                .map(move |job| [&list[..], &[job]].concat())
        };
        lists = lists.into_iter().flat_map(longer).collect();
    }
    lists
}

/// How many of these lists are on time, and how many are not.
fn try_all(bench: &Bench, lists: &[Vec<Job>]) -> Result<(u32, u32), String> {
    let (mut on_time, mut late) = (0, 0);
    for jobs in lists {
        match told(bench, jobs)? {
            true => on_time += 1,
            false => late += 1,
        }
    }
    Ok((on_time, late))
}

fn every_run(bench: &Bench) {
    assert_eq!(try_all(bench, &all_lists(0, 1)), Ok((1, 0)));
    assert_eq!(try_all(bench, &all_lists(1, 40)), Ok((820, 0)));
    assert_eq!(try_all(bench, &all_lists(2, 10)), Ok((1019, 2006)));
    assert_eq!(try_all(bench, &all_lists(3, 7)), Ok((853, 21_099)));
}

#[test]
fn every_run_of_the_library() {
    every_run(&LIBRARY);
}

#[test]
fn every_run_of_the_reference() {
    every_run(&REFERENCE);
}

/// A margin of zero or more is kept in every run, whatever the others are. How
/// many such margins there are on lists that do not fit.
fn kept(bench: &Bench, lists: &[Vec<Job>]) -> u32 {
    let mut kept = 0;
    for jobs in lists {
        let margins = margins(bench, jobs);
        if margins.iter().all(|&margin| margin >= 0) {
            continue;
        }
        let found = longest(bench, jobs, false);
        for ((job, margin), ticks) in jobs.iter().zip(margins).zip(found) {
            if margin >= 0 {
                assert!(to_spare(job, ticks) >= Some(margin), "{jobs:?}");
                kept += 1;
            }
        }
    }
    kept
}

#[test]
fn a_margin_of_zero_or_more_is_kept_by_itself() {
    assert_eq!(kept(&LIBRARY, &all_lists(2, 8)), 890);
    assert_eq!(kept(&LIBRARY, &all_lists(3, 5)), 3970);
}

/// Task 1 can be late, and is then released later than the demand of task 2
/// counts; so no run keeps task 2 from its one tick for 34.
#[test]
fn a_margin_below_zero_may_be_anothers_fault() {
    let jobs = [(5, 2), (7, 4), (34, 1)];
    assert_eq!(margins(&LIBRARY, &jobs), [3, -1, -1]);
    let found = longest(&LIBRARY, &jobs, false);
    assert_eq!((found[0], found[1]), (Some(2), None));
    assert!(found[2].is_some());
    // task 2 with a period one tick longer has margin 0
    let jobs = [(5, 2), (7, 4), (35, 1)];
    assert_eq!(margins(&LIBRARY, &jobs), [3, -1, 0]);
    assert!(to_spare(&jobs[2], longest(&LIBRARY, &jobs, false)[2]) >= Some(0));
}

/// The reference with this done to its margins.
fn with(margin: fn(&[u8], u64) -> MarginAnswer) -> Bench {
    Bench {
        margin,
        ..REFERENCE
    }
}

fn changed(list: &[u8], number: u64, change: fn(i32) -> i32) -> MarginAnswer {
    let answer = reference::margin(list, number);
    MarginAnswer {
        margin: change(answer.margin),
        ..answer
    }
}

#[test]
fn wrong_margins_are_noticed() {
    let lists = all_lists(2, 5);
    assert!(try_all(&REFERENCE, &lists).is_ok());
    let wrong: [fn(&[u8], u64) -> MarginAnswer; 4] = [
        |list, number| changed(list, number, i32::abs),
        |list, number| changed(list, number, |margin| margin + 1),
        |list, number| changed(list, number, |margin| margin.min(-1)),
        |list, number| changed(list, number, |margin| margin.min(0)),
    ];
    for margin in wrong {
        assert!(try_all(&with(margin), &lists).is_err());
    }
}

#[test]
fn partitions_of_ten_tasks() {
    assert_eq!(counts(&|set| never_late(binding::margin, set)), EXACT);
}
