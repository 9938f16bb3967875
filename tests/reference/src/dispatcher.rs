//! The dispatcher: the two starts, release, finish and tick.

use crate::jobs;
use crate::{
    accept, refuse_if, Core, CoreAnswer, Outcome, Refusal, Task, TickAnswer, IDLE, LONGEST_PERIOD,
};

/// Start a core of a sheet of any version, its tasks by number: the checker's
/// refusals, then 9 where there is no such core.
pub fn start_sheet(sheet: &[u8], core: u64) -> CoreAnswer {
    answer(Core::EMPTY, sheet_state(sheet, core))
}

/// Start from a job list, on the bench: 5, 4, 7, 8.
pub fn start_list(list: &[u8]) -> CoreAnswer {
    answer(Core::EMPTY, list_state(list))
}

/// Release: 21, then 17, 18, 19; else age 0 and ticks left e.
pub fn release(core: Core, number: u64) -> CoreAnswer {
    answer(core, released(core, number))
}

/// Finish: 21, then 17, 20; else ticks left 0, and the job's stroke ends.
pub fn finish(core: Core, number: u64) -> CoreAnswer {
    answer(core, finished(core, number))
}

/// Tick: 21; else the task in its stroke, or where there is none the first
/// pending task by priority, which begins a stroke, loses one tick, and every age
/// rises by one, up to its period.
pub fn tick(core: Core) -> TickAnswer {
    if let Err(refusal) = not_foreign(&core) {
        return TickAnswer {
            refusal: refusal.number,
            place: refusal.place,
            task: 0,
            core,
        };
    }
    let mut next = core;
    let count = core.count as usize;
    let in_stroke = core.stroke_left > 0;
    let gets_the_tick = |task: &&mut Task| match in_stroke {
        true => task.number == core.stroke_task,
        false => task.left > 0,
    };
    let mut task = IDLE;
    if let Some(running) = next.tasks[..count].iter_mut().find(gets_the_tick) {
        // the ticks of the stroke that are still to come, this one included
        let stroke = match in_stroke {
            true => core.stroke_left as u16,
            false => (running.stroke as u16).min(running.left),
        };
        running.left -= 1;
        task = running.number;
        next.stroke_left = stroke as u8 - 1;
        next.stroke_task = if stroke > 1 { task } else { 0 };
    }
    for task in &mut next.tasks[..count] {
        task.age = (task.age + 1).min(task.period);
    }
    TickAnswer {
        refusal: 0,
        place: 0,
        task,
        core: next,
    }
}

/// The next state, or the refusal with the state `kept`.
fn answer(kept: Core, outcome: Outcome<Core>) -> CoreAnswer {
    match outcome {
        Ok(core) => CoreAnswer {
            refusal: 0,
            place: 0,
            core,
        },
        Err(refusal) => CoreAnswer {
            refusal: refusal.number,
            place: refusal.place,
            core: kept,
        },
    }
}

fn sheet_state(bytes: &[u8], core: u64) -> Outcome<Core> {
    let sheet = accept(bytes)?;
    refuse_if(9, core >= sheet.cores.len() as u64)?;
    let tasks = sheet.by_priority(core as usize).into_iter().map(|i| {
        let task = sheet.tasks[i];
        (i, task.period, task.budget, task.stroke)
    });
    Ok(fresh(tasks))
}

fn list_state(list: &[u8]) -> Outcome<Core> {
    let jobs = jobs::read(list, 0)?;
    let tasks = jobs::by_priority(&jobs)
        .into_iter()
        .map(|i| (i, jobs[i].period, jobs[i].budget, 1));
    Ok(fresh(tasks))
}

/// The fresh state of tasks (number, period, budget, stroke length) in priority
/// order.
fn fresh(tasks: impl Iterator<Item = (usize, u64, u64, u64)>) -> Core {
    let mut core = Core::EMPTY;
    for (number, period, budget, stroke) in tasks {
        core.tasks[core.count as usize] = Task {
            period: period as u16,
            budget: budget as u16,
            age: period as u16,
            left: 0,
            number: number as u8,
            stroke: stroke as u8,
        };
        core.count += 1;
    }
    core
}

/// Rule 21: the state has its own form. Places past its tasks do not matter.
fn not_foreign(core: &Core) -> Outcome<()> {
    refuse_if(21, core.count > 64)?;
    let tasks = core.used();
    let in_range = |task: &Task| {
        task.number <= 63
            && (1..=LONGEST_PERIOD).contains(&(task.period as u64))
            && (1..=task.period).contains(&task.budget)
            && task.age <= task.period
            && task.left <= task.budget
            && (1..=task.budget).contains(&(task.stroke as u16))
    };
    let number_repeated =
        (0..tasks.len()).any(|i| (0..i).any(|k| tasks[k].number == tasks[i].number));
    let priority = |task: &Task| (task.period, task.number);
    let in_order = tasks
        .windows(2)
        .all(|pair| priority(&pair[0]) < priority(&pair[1]));
    refuse_if(
        21,
        !tasks.iter().all(in_range) || number_repeated || !in_order || !stroke_in_form(core),
    )
}

/// A stroke is of a pending task and has at most q - 1 ticks left and at most
/// those of the job. Where no ticks are left, there is no stroke, and its number
/// is 0.
fn stroke_in_form(core: &Core) -> bool {
    if core.stroke_left == 0 {
        return core.stroke_task == 0;
    }
    let named = |task: &&Task| task.number == core.stroke_task;
    core.used().iter().find(named).is_some_and(|task| {
        task.left > 0 && core.stroke_left < task.stroke && core.stroke_left as u16 <= task.left
    })
}

/// Where the task with this number stands, or 17.
fn position(core: &Core, number: u64) -> Outcome<usize> {
    let named = |task: &Task| task.number as u64 == number;
    core.used().iter().position(named).ok_or(Refusal {
        number: 17,
        place: 0,
    })
}

/// Refuse with this number at the task itself, if `broken`.
fn refuse_task(number: u8, broken: bool, task: &Task) -> Outcome<()> {
    crate::refuse_at(number, broken.then_some(task.number as usize))
}

fn released(mut core: Core, number: u64) -> Outcome<Core> {
    not_foreign(&core)?;
    let at = position(&core, number)?;
    let task = &mut core.tasks[at];
    refuse_task(18, task.age < task.period, task)?;
    refuse_task(19, task.left > 0, task)?;
    task.age = 0;
    task.left = task.budget;
    Ok(core)
}

fn finished(mut core: Core, number: u64) -> Outcome<Core> {
    not_foreign(&core)?;
    let at = position(&core, number)?;
    let task = &mut core.tasks[at];
    refuse_task(20, task.left == 0, task)?;
    task.left = 0;
    if core.stroke_left > 0 && core.stroke_task as u64 == number {
        (core.stroke_task, core.stroke_left) = (0, 0);
    }
    Ok(core)
}
