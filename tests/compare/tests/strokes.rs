//! The on-time rule with strokes, on every run of every accepted version 3 core
//! of two or three tasks with short periods and small figures.

use reference::{CheckAnswer, Core, CoreAnswer, CoreRecord, Sheet, TaskRecord, TickAnswer};
use std::collections::HashSet;

/// The calls, of the library or of the reference.
#[derive(Clone, Copy)]
struct Bench {
    check: fn(&[u8]) -> CheckAnswer,
    start: fn(&[u8], u64) -> CoreAnswer,
    release: fn(Core, u64) -> CoreAnswer,
    finish: fn(Core, u64) -> CoreAnswer,
    tick: fn(Core) -> TickAnswer,
}

const LIBRARY: Bench = Bench {
    check: binding::check,
    start: binding::start_sheet,
    release: binding::release,
    finish: binding::finish,
    tick: binding::tick,
};

const REFERENCE: Bench = Bench {
    check: reference::check,
    start: reference::start_sheet,
    release: reference::release,
    finish: reference::finish,
    tick: reference::tick,
};

/// Period, budget and stroke length.
type Task = (u64, u64, u64);

/// Up to three tasks.
const MOST: usize = 3;

/// A state that a run has come to.
#[derive(Clone, Copy)]
struct Moment {
    core: Core,
    /// For each task the ticks since its last release, up to the period, which
    /// it also is before the first.
    since: [u64; MOST],
}

impl Moment {
    fn left(&self, number: usize) -> u16 {
        let mut tasks = self.core.used().iter();
        let named = tasks.find(|task| task.number as usize == number);
        named.expect("the task is on the core").left
    }

    /// What tells it from others, all below 256.
    fn key(&self, count: usize) -> u64 {
        let stroke = (self.core.stroke_task as u64) << 8 | self.core.stroke_left as u64;
        (0..count).fold(stroke, |key, i| {
            key << 16 | self.since[i] << 8 | self.left(i) as u64
        })
    }
}

/// For each task the most ticks, in any run from this start, that a job of it
/// takes from its release to its last tick, or none if some run leaves a job of
/// it pending once its period has passed since its release.
fn longest(bench: &Bench, fresh: Core, tasks: &[Task]) -> Vec<Option<u64>> {
    let mut since = [0; MOST];
    for (since, task) in since.iter_mut().zip(tasks) {
        *since = task.0;
    }
    let count = tasks.len();
    let fresh = Moment { core: fresh, since };
    let mut longest = vec![Some(0); count];
    let mut seen = HashSet::from([fresh.key(count)]);
    let mut ahead = vec![fresh];
    while let Some(now) = ahead.pop() {
        let mut go = |next: Moment| {
            if seen.insert(next.key(count)) {
                ahead.push(next);
            }
        };
        for number in 0..count {
            let release = (bench.release)(now.core, number as u64);
            if release.refusal == 0 {
                let mut next = now;
                next.core = release.core;
                next.since[number] = 0;
                go(next);
            }
            let finish = (bench.finish)(now.core, number as u64);
            if finish.refusal == 0 {
                let mut next = now;
                next.core = finish.core;
                go(next);
            }
        }
        let mut next = now;
        next.core = (bench.tick)(now.core).core;
        for (i, &(period, _, _)) in tasks.iter().enumerate() {
            next.since[i] = (now.since[i] + 1).min(period);
            if next.left(i) > 0 && next.since[i] == period {
                longest[i] = None;
            }
            if now.left(i) > 0 && next.left(i) == 0 {
                longest[i] = longest[i].map(|ticks: u64| ticks.max(next.since[i]));
            }
        }
        go(next);
    }
    longest
}

/// All tasks with periods up to `longest`.
fn all_tasks(longest: u64) -> Vec<Task> {
    let of = |p| (1..=p).flat_map(move |e| (1..=e).map(move |q| (p, e, q)));
    (1..=longest).flat_map(of).collect()
}

/// All sets of so many tasks in priority order with periods up to `longest`
/// that do not ask for more than all of the time.
fn all_sets(count: usize, longest: u64) -> Vec<Vec<Task>> {
    let mut sets = vec![vec![]];
    for _ in 0..count {
        let more = |set: Vec<Task>| {
            let shortest = set.last().map_or(1, |task: &Task| task.0);
            let tasks = all_tasks(longest).into_iter();
            tasks
                .filter(move |task| task.0 >= shortest)
                .map(move |task| [&set[..], &[task]].concat())
        };
        let all: u64 = (1..=longest).product();
        let asked = |set: &Vec<Task>| set.iter().map(|&(p, e, _)| e * (all / p)).sum::<u64>();
        let sets_of_more = sets.into_iter().flat_map(more);
        sets = sets_of_more.filter(|set| asked(set) <= all).collect();
    }
    sets
}

/// Sheets of these tasks on one core: pivots up to the last period, divisors up
/// to 3, and chains of factors from 1, of fewer than three tasks also from 2, up
/// to twice the last period.
fn all_sheets(tasks: &[Task]) -> Vec<Sheet> {
    let last = tasks[tasks.len() - 1].0;
    let mut chains: Vec<Vec<u64>> = vec![vec![1], vec![2]];
    chains.truncate(4 - tasks.len().clamp(2, 3));
    for _ in 1..tasks.len() {
        let more = |chain: Vec<u64>| {
            let factor = chain[chain.len() - 1];
            let steps = (1..=last).filter(move |step| factor * step <= 2 * last);
            steps.map(move |step| [&chain[..], &[factor * step]].concat())
        };
        chains = chains.into_iter().flat_map(more).collect();
    }
    let sheet = |(pivot, divisor, chain): (u64, u64, &Vec<u64>)| {
        let task = |(&(period, budget, stroke), &factor)| TaskRecord {
            period,
            budget,
            core: 0,
            stroke,
            factor,
        };
        Sheet {
            tasks: tasks.iter().zip(chain).map(task).collect(),
            cores: vec![CoreRecord { pivot, divisor }],
        }
    };
    let cores = (1..=last).flat_map(|pivot| (1..=3).map(move |divisor| (pivot, divisor)));
    cores
        .flat_map(|(pivot, divisor)| chains.iter().map(move |chain| (pivot, divisor, chain)))
        .map(sheet)
        .collect()
}

/// What was found of all these sets.
#[derive(Debug, Default, PartialEq, Eq)]
struct Found {
    /// Sheets that are accepted, and sets with one.
    sheets: u32,
    sets: u32,
    /// Accepted sheets with a task above a stroke of several ticks whose longest
    /// job takes all of its w.
    tight: u32,
    /// Sheets that are refused for a stroke alone and have a run in which a job
    /// does not end within its w.
    late: u32,
}

/// Every job of every run of an accepted sheet ends within w.
fn try_all(bench: &Bench, sets: &[Vec<Task>]) -> Result<Found, String> {
    let mut found = Found::default();
    for tasks in sets {
        let mut runs = None;
        let (mut accepted, mut refused) = (Vec::new(), Vec::new());
        for sheet in all_sheets(tasks) {
            let bytes = sheet.write_strokes();
            match (bench.check)(&bytes).refusal {
                0 => accepted.push(sheet),
                14 if (bench.check)(&sheet.write()).refusal == 0 => refused.push(sheet),
                _ => {}
            }
        }
        let in_time = |sheet: &Sheet, longest: &[Option<u64>]| {
            (0..tasks.len()).all(|i| longest[i].is_some_and(|ticks| ticks <= sheet.within(i)))
        };
        for sheet in &accepted {
            let runs = runs.get_or_insert_with(|| {
                let start = (bench.start)(&sheet.write_strokes(), 0);
                assert_eq!(start.refusal, 0);
                longest(bench, start.core, tasks)
            });
            if !in_time(sheet, runs) {
                return Err(format!("{tasks:?}: {sheet:?} {runs:?}"));
            }
            let takes_all = |i: usize| sheet.blocking(i) > 0 && runs[i] == Some(sheet.within(i));
            found.tight += (0..tasks.len()).any(takes_all) as u32;
        }
        found.sheets += accepted.len() as u32;
        found.sets += !accepted.is_empty() as u32;
        for sheet in &refused {
            // the runs do not depend on the figures
            let runs = runs.get_or_insert_with(|| {
                let mut fresh = (bench.start)(&sheet.write(), 0).core;
                for (task, &(_, _, stroke)) in fresh.tasks.iter_mut().zip(tasks) {
                    task.stroke = stroke as u8;
                }
                longest(bench, fresh, tasks)
            });
            found.late += !in_time(sheet, runs) as u32;
        }
    }
    Ok(found)
}

fn every_run(bench: &Bench) {
    let found = |[sheets, sets, tight, late]: [u32; 4]| Found {
        sheets,
        sets,
        tight,
        late,
    };
    let one = try_all(bench, &all_sets(1, 9));
    assert_eq!(one, Ok(found([1599, 165, 0, 0])));
    let two = try_all(bench, &all_sets(2, 10));
    assert_eq!(two, Ok(found([37_080, 3417, 4744, 3944])));
    let three = try_all(bench, &all_sets(3, 7));
    assert_eq!(three, Ok(found([2523, 883, 345, 28])));
}

#[test]
fn every_run_of_the_library() {
    every_run(&LIBRARY);
}

#[test]
fn every_run_of_the_reference() {
    every_run(&REFERENCE);
}

/// A checker that leaves the strokes out of rule 14.
fn without_blocking(bytes: &[u8]) -> CheckAnswer {
    let answer = reference::check(bytes);
    if answer.refusal != 14 {
        return answer;
    }
    let mut plain = bytes.to_vec();
    plain[3] = 1;
    (0..bytes[5] as usize).for_each(|i| plain[8 + 10 * i + 5] = 0);
    reference::check(&plain)
}

#[test]
fn mistakes_are_noticed() {
    let sets = all_sets(2, 5);
    assert!(try_all(&REFERENCE, &sets).is_ok());
    let check = without_blocking;
    assert!(try_all(&Bench { check, ..REFERENCE }, &sets).is_err());
}
