//! Random calls on a running core.

use crate::Rng;
use reference::{Core, Task};

#[derive(Clone, Copy, Debug, PartialEq, Eq)]
pub enum Call {
    Release(u64),
    Finish(u64),
    Tick,
}

/// Mostly a number below `end`; else one near it, one that is below `end` in
/// its low bits only, or any.
pub fn any_number(rng: &mut Rng, end: u64) -> u64 {
    let low = rng.below(end.max(1));
    match rng.below(12) {
        0 => end,
        1 => end + 1,
        2 => low + rng.pick(&[256, 65_536, 1 << 32, 1 << 63]),
        3 => rng.pick(&[255, 65_535, u32::MAX as u64, u64::MAX]),
        4 => rng.word(),
        _ => low,
    }
}

/// The next call on a core. The lower the style, the more eagerly tasks are
/// released; 1 releases each task as soon as it may be. 0 is for strokes: the
/// tasks above wait until one is under way.
pub fn random_call(rng: &mut Rng, core: &Core, style: u64) -> Call {
    if style == 0 {
        return stroke_call(rng, core);
    }
    let numbers_of = |test: fn(&&Task) -> bool| -> Vec<u64> {
        let tasks = core.used().iter().filter(test);
        tasks.map(|task| task.number as u64).collect()
    };
    let ready = numbers_of(is_ready);
    let late = numbers_of(|task| task.age == task.period && task.left > 0);
    let pending = numbers_of(|task| task.left > 0);
    if !ready.is_empty() && rng.once_in(style) {
        Call::Release(rng.pick(&ready))
    } else if !late.is_empty() && rng.once_in(10) {
        Call::Release(rng.pick(&late))
    } else if rng.once_in(50) {
        Call::Release(any_number(rng, 64))
    } else if style > 1 && rng.once_in(60) {
        Call::Finish(any_number(rng, 64))
    } else if style > 2 && !pending.is_empty() && rng.once_in(40) {
        Call::Finish(rng.pick(&pending))
    } else {
        Call::Tick
    }
}

fn is_ready(task: &&Task) -> bool {
    task.age == task.period && task.left == 0
}

/// In a stroke the tasks above it are released, and now and then a job is
/// finished, its own or another; where nothing is pending, a task is released
/// that has strokes of several ticks, mostly the last one by priority.
fn stroke_call(rng: &mut Rng, core: &Core) -> Call {
    let tasks = core.used();
    let number = |task: &Task| task.number as u64;
    let pending: Vec<u64> = tasks.iter().filter(|t| t.left > 0).map(number).collect();
    if rng.once_in(40) {
        let any = any_number(rng, 64);
        return rng.pick(&[Call::Release(any), Call::Finish(any)]);
    }
    if core.stroke_left > 0 {
        let own = core.stroke_task as u64;
        let above = tasks.iter().take_while(|&task| number(task) != own);
        let above: Vec<u64> = above.filter(is_ready).map(number).collect();
        return match rng.below(60) {
            0 => Call::Finish(own),
            1 => Call::Finish(rng.pick(&pending)),
            2..50 if !above.is_empty() => Call::Release(rng.pick(&above)),
            _ => Call::Tick,
        };
    }
    let ready: Vec<&Task> = tasks.iter().filter(is_ready).collect();
    let long: Vec<&Task> = ready.iter().copied().filter(|t| t.stroke > 1).collect();
    match (long.last(), ready.is_empty()) {
        (Some(last), _) if pending.is_empty() && rng.once_in(3) => Call::Release(number(last)),
        (Some(_), _) if rng.once_in(12) => Call::Release(number(rng.pick(&long))),
        (_, false) if rng.once_in(30) => Call::Release(number(rng.pick(&ready))),
        _ => Call::Tick,
    }
}
