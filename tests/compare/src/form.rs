//! Why a state is Foreign.

use crate::session::Kind;
use reference::{Core, Task};

const LENGTH_ZERO: &str = "a stroke length of 0";
const LENGTH_ABOVE: &str = "a stroke length above the budget";
const NO_TASK: &str = "a stroke of no task of the core";
const PAST: &str = "a stroke of a task past the count";
const NO_TASK_0: &str = "a stroke of task 0, and there is none";
const QUIET: &str = "a stroke of a task that is not pending";
const ABOVE_LENGTH: &str = "a stroke with more ticks left than its length less 1";
const ABOVE_JOB: &str = "a stroke with more ticks left than its job";
const NO_TICKS: &str = "a stroke's number without ticks left";
const OTHER: &str = "nothing of strokes";

/// Each reason for 21, by itself.
pub const REASONS: [Kind; 10] = [
    (21, LENGTH_ZERO),
    (21, LENGTH_ABOVE),
    (21, NO_TASK),
    (21, PAST),
    (21, NO_TASK_0),
    (21, QUIET),
    (21, ABOVE_LENGTH),
    (21, ABOVE_JOB),
    (21, NO_TICKS),
    (21, OTHER),
];

/// The reason for which a Foreign state is so, where there is one alone.
pub fn only_reason(core: &Core) -> Option<&'static str> {
    match reasons(core)[..] {
        [reason] => Some(reason),
        _ => None,
    }
}

/// Why a state is Foreign, all that applies.
fn reasons(core: &Core) -> Vec<&'static str> {
    let mut reasons = Vec::new();
    let mut add = |applies: bool, reason: &'static str| {
        if applies {
            reasons.push(reason);
        }
    };
    add(!in_form_but_for_strokes(core), OTHER);
    let (tasks, past) = core.tasks.split_at(core.count.min(64) as usize);
    add(tasks.iter().any(|task| task.stroke == 0), LENGTH_ZERO);
    add(
        tasks.iter().any(|task| task.stroke as u16 > task.budget),
        LENGTH_ABOVE,
    );
    let (number, ticks) = (core.stroke_task, core.stroke_left);
    if ticks == 0 {
        add(number != 0, NO_TICKS);
        return reasons;
    }
    let named = |task: &&Task| task.number == number;
    match tasks.iter().find(named) {
        None => {
            let pending = |task: &Task| named(&task) && task.left >= ticks as u16;
            let missing = match past.iter().any(pending) {
                true => PAST,
                false if number == 0 => NO_TASK_0,
                false => NO_TASK,
            };
            add(true, missing);
        }
        Some(task) => {
            add(ticks as u16 + 1 > task.stroke as u16, ABOVE_LENGTH);
            // of no ticks there are always too many
            match task.left {
                0 => add(true, QUIET),
                left => add(ticks as u16 > left, ABOVE_JOB),
            }
        }
    }
    reasons
}

/// The same state with strokes of one tick, of which none lasts.
fn in_form_but_for_strokes(core: &Core) -> bool {
    let mut other = *core;
    other.tasks.iter_mut().for_each(|task| task.stroke = 1);
    (other.stroke_task, other.stroke_left) = (0, 0);
    reference::tick(other).refusal != 21
}
