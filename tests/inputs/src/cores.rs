//! Random states of a core.

use crate::{job_list, Rng};
use reference::{start_list, tick, Core, Task};

pub const CORE_DAMAGES: usize = 22;

/// A state in form with any ages, ticks left and strokes, often in the middle
/// of one. Kind 0 leaves it so; every other kind changes one thing, which may
/// break its form.
pub fn any_core(rng: &mut Rng, kind: usize) -> Core {
    let mut core = sound_core(rng);
    damage(rng, &mut core, kind);
    core
}

/// A state that is Foreign, by one of the kinds of damage.
pub fn foreign_core(rng: &mut Rng) -> Core {
    loop {
        let kind = rng.range(1, CORE_DAMAGES as u64 - 1) as usize;
        let core = any_core(rng, kind);
        if tick(core).refusal == 21 {
            return core;
        }
    }
}

fn sound_core(rng: &mut Rng) -> Core {
    let any = rng.range(0, 64) as usize;
    let count = rng.pick(&[any, any, 64]);
    let full = start_list(&job_list(rng, count)).core;
    let mut core = Core::EMPTY;
    let (thin, short) = (rng.once_in(2), rng.once_in(4));
    for task in full.used() {
        // the numbers that are left need not be 0, 1, 2 ..
        if thin && rng.once_in(2) {
            continue;
        }
        let age = rng.range(0, task.period as u64) as u16;
        let left = rng.range(1, task.budget as u64) as u16;
        core.tasks[core.count as usize] = Task {
            age: rng.pick(&[task.period, task.period, 0, age]),
            left: rng.pick(&[0, 0, task.budget, left]),
            stroke: if short {
                1
            } else {
                any_stroke(rng, task.budget)
            },
            ..*task
        };
        core.count += 1;
    }
    if !rng.once_in(3) {
        begin_stroke(rng, &mut core);
    }
    if rng.once_in(2) {
        for place in core.count as usize..64 {
            core.tasks[place] = random_task(rng);
        }
    }
    core
}

/// A stroke length in range for this budget.
fn any_stroke(rng: &mut Rng, budget: u16) -> u8 {
    let most = budget.min(255) as u8;
    let any = rng.range(1, most as u64) as u8;
    rng.pick(&[1, most, any, any])
}

/// Put a pending task into the middle of a stroke, if there is one with strokes
/// of several ticks.
fn begin_stroke(rng: &mut Rng, core: &mut Core) {
    let can = |task: &&Task| task.left > 0 && task.stroke > 1;
    let tasks: Vec<Task> = core.used().iter().filter(can).copied().collect();
    if !tasks.is_empty() {
        let task = rng.pick(&tasks);
        let most = task.left.min(task.stroke as u16 - 1) as u8;
        let any = rng.range(1, most as u64) as u8;
        (core.stroke_task, core.stroke_left) = (task.number, rng.pick(&[1, most, any]));
    }
}

/// States in form of so many tasks with any ages and strokes: none pending, each
/// task alone, each with about half of those after it, each with about half of
/// those before it and in its stroke if it has one, and random sets from all
/// tasks to few.
pub fn pending_states(rng: &mut Rng, count: usize) -> Vec<Core> {
    let mut sets = vec![(0, None); 8];
    for place in 0..count {
        let (alone, word) = (1 << place, rng.word());
        sets.extend([(alone, None), ((word | 1) << place, None)]);
        sets.push((word & (alone - 1) | alone, Some(place)));
    }
    let mut set = u64::MAX;
    for _ in 0..6 {
        sets.push((set, None));
        set &= rng.word();
    }
    let mut states = Vec::new();
    // for every eight sets other tasks, for each set other ages
    for some in sets.chunks(8) {
        let quiet = quiet_core(rng, count);
        for &(set, in_stroke) in some {
            let aged = with_ages(rng, quiet);
            states.push(with_pending(rng, aged, set, in_stroke));
        }
    }
    states
}

/// A fresh state of so many tasks, mostly with any strokes, else with those of
/// one tick.
fn quiet_core(rng: &mut Rng, count: usize) -> Core {
    let listed = rng.range(count as u64, 64) as usize;
    let mut tasks = start_list(&job_list(rng, listed)).core.used().to_vec();
    while tasks.len() > count {
        tasks.remove(rng.index(tasks.len()));
    }
    let mut core = Core::EMPTY;
    core.count = count as u64;
    core.tasks[..count].copy_from_slice(&tasks);
    if !rng.once_in(3) {
        for task in &mut core.tasks[..count] {
            task.stroke = any_stroke(rng, task.budget);
        }
    }
    core
}

/// A state with other ages: the period, one below it, 0, or any.
fn with_ages(rng: &mut Rng, mut core: Core) -> Core {
    for task in &mut core.tasks[..core.count as usize] {
        let any = rng.range(0, task.period as u64) as u16;
        task.age = rng.pick(&[task.period, task.period - 1, 0, any]);
    }
    core
}

/// A quiet state with the tasks pending whose places have a bit in `pending`,
/// and the one at the place `in_stroke`, or sometimes any, in a stroke if it can
/// be. Past the tasks stand random ones, most of them with ticks left, or zeros.
fn with_pending(rng: &mut Rng, mut core: Core, pending: u64, in_stroke: Option<usize>) -> Core {
    let (tasks, past) = core.tasks.split_at_mut(core.count as usize);
    for (place, task) in tasks.iter_mut().enumerate() {
        if pending >> place & 1 == 1 {
            let any = rng.range(1, task.budget as u64) as u16;
            // a multiple of 256, unless `any` is below it
            let high = (any & 0xFF00).max(1);
            task.left = rng.pick(&[1, task.budget, any, high]);
        }
    }
    if !rng.once_in(4) {
        for task in past {
            *task = random_task(rng);
            task.left = rng.pick(&[0, 1, task.left, task.left]);
        }
    }
    match in_stroke {
        Some(place) => {
            let mut alone = Core::EMPTY;
            alone.count = 1;
            alone.tasks[0] = core.tasks[place];
            begin_stroke(rng, &mut alone);
            (core.stroke_task, core.stroke_left) = (alone.stroke_task, alone.stroke_left);
        }
        None if rng.once_in(3) => begin_stroke(rng, &mut core),
        None => {}
    }
    core
}

fn random_task(rng: &mut Rng) -> Task {
    Task {
        period: rng.word() as u16,
        budget: rng.word() as u16,
        age: rng.word() as u16,
        left: rng.word() as u16,
        number: rng.byte(),
        stroke: rng.byte(),
    }
}

fn damage(rng: &mut Rng, core: &mut Core, kind: usize) {
    let count = core.count as usize;
    let numbers = core.tasks.map(|task| task.number);
    // often the last task, where a longer period keeps the order
    let (last, any) = (count.saturating_sub(1), rng.index(count.max(1)));
    let at = rng.pick(&[any, last]);
    let other = rng.index(count.max(1));
    let task = &mut core.tasks[at];
    match kind {
        0 => {}
        1 => core.count = rng.pick(&[64, 65, 256, (1 << 32) + core.count, u64::MAX]),
        2 => core.count = rng.below(66),
        3 => task.period = rng.pick(&[0, 1, 60_000, 60_001, 65_535]),
        4 => task.budget = rng.pick(&[0, 1, task.period, task.period.saturating_add(1)]),
        5 => task.age = rng.pick(&[0, task.period, task.period.saturating_add(1), 65_535]),
        6 => task.left = rng.pick(&[0, task.budget, task.budget.saturating_add(1), 65_535]),
        7 => task.number = rng.pick(&[0, 63, 64, 255, numbers[other]]),
        8 => core.tasks.swap(at, other),
        9 => core.tasks.swap(at, (at + 1).min(63)),
        10 => *task = random_task(rng),
        // a neighbour with the same period: the numbers decide
        11 => {
            let period = task.period;
            let next = &mut core.tasks[(at + 1).min(63)];
            next.period = period;
            next.budget = next.budget.min(next.period);
            next.age = next.age.min(next.period);
            next.left = next.left.min(next.budget);
            next.stroke = next.stroke.min(next.budget.min(255) as u8);
        }
        _ => damage_stroke(rng, core, kind, at),
    }
}

/// The kinds of damage from 12 on: of a task's stroke length, or of the stroke,
/// which is mostly one of this task.
fn damage_stroke(rng: &mut Rng, core: &mut Core, kind: usize, at: usize) {
    let count = core.count as usize;
    let past = rng.range(count.min(63) as u64, 63) as usize;
    let task = &mut core.tasks[at];
    let most = task.budget.min(255) as u8;
    let any = rng.byte();
    match kind {
        12 => task.stroke = rng.pick(&[0, 1, most, most.saturating_add(1), 255, any]),
        // of this task, pending or not
        13 => {
            let left = rng.pick(&[1, task.stroke.saturating_sub(1), any]);
            (core.stroke_task, core.stroke_left) = (task.number, left);
        }
        // of this task, which is not pending
        14 => {
            task.left = 0;
            let left = task.stroke.saturating_sub(1).max(1);
            (core.stroke_task, core.stroke_left) = (task.number, left);
        }
        // of this task, with q ticks left and one less
        15 => {
            task.left = task.budget;
            task.stroke = rng.range(1, most.max(1) as u64) as u8;
            let left = task.stroke.saturating_sub(rng.below(2) as u8);
            (core.stroke_task, core.stroke_left) = (task.number, left);
        }
        // of this task, with the ticks left to its job and one more
        16 => {
            task.stroke = most;
            let left = rng.range(1, most.max(2) as u64 - 1);
            task.left = left as u16;
            let left = left as u8 + rng.below(2) as u8;
            (core.stroke_task, core.stroke_left) = (task.number, left);
        }
        // a number without ticks left
        17 => {
            let number = rng.pick(&[task.number, 1, 63, 64, 255, any]);
            (core.stroke_task, core.stroke_left) = (number, 0);
        }
        // of no task, or of any
        18 => {
            core.stroke_task = rng.pick(&[0, 63, 64, 128, 255, any & 63]);
            core.stroke_left = rng.pick(&[core.stroke_left, 1, 1]);
        }
        // of task 0, which mostly is not there or not pending
        19 => {
            let left = rng.pick(&[1, 1, 2, any]);
            (core.stroke_task, core.stroke_left) = (0, left);
        }
        // of a place past the tasks
        20 => {
            let mut other = *task;
            other.number = any & 63;
            (other.stroke, other.left) = (most, other.budget);
            if past >= count {
                core.tasks[past] = other;
            }
            (core.stroke_task, core.stroke_left) = (other.number, 1);
        }
        // the ticks left alone
        _ => core.stroke_left = rng.pick(&[0, 1, 255, any]),
    }
}
