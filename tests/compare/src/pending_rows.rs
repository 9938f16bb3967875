//! Rows of the states with which single ticks are tried: of every count, with
//! each task pending alone or with others. The tick of a row may be other code.

use crate::rows::{any_room, Row};
use crate::session::Session;
use inputs::{pending_states, Rng};
use reference::{Core, Task, IDLE};

/// Kinds by the place of a task.
const SERVED: &str = "a task served outside strokes";
const BEGINS: &str = "a task served that begins a stroke of several ticks";
const IN_STROKE: &str = "a task served in its stroke";
const HELD: &str = "a task served in its stroke, with one above it pending";
const AT_PERIOD: &str = "an age at the period";
const ONE_BELOW: &str = "an age one below the period";
const FAR_BELOW: &str = "an age more than 255 below the period";
/// Kinds by the count of a state.
const IDLE_OF: &str = "an idle state by its count";
const IDLE_PAST: &str = "an idle state with ticks left past its tasks by its count";

pub fn must_have_seen(session: &Session) {
    for kind in [SERVED, BEGINS, IN_STROKE, AT_PERIOD, ONE_BELOW, FAR_BELOW] {
        session.must_have_seen_at("tick_row", kind, 0..64);
    }
    session.must_have_seen_at("tick_row", HELD, 1..64);
    session.must_have_seen_at("tick_row", IDLE_OF, 0..65);
    session.must_have_seen_at("tick_row", IDLE_PAST, 0..64);
}

/// States of all counts in any order, in rows of some tens.
pub fn round(session: &mut Session, rng: &mut Rng) {
    let mut states = Vec::new();
    for count in 0..=64 {
        states.extend(pending_states(rng, count));
    }
    rng.shuffle(&mut states);
    let mut rest = states.as_slice();
    while !rest.is_empty() {
        let count = rng.range(20, 60) as usize;
        let (row, others) = rest.split_at(count.min(rest.len()));
        let room = any_room(rng, row.len());
        let (answer, answers) = Row::new(rng, row.to_vec()).tick(session, rng, room);
        assert_eq!(answer.refusal, 0, "the states are in form");
        for (core, &task) in row.iter().zip(&answers) {
            kinds(session, core, task);
        }
        rest = others;
    }
}

/// The kinds of a state in an accepted row, and of its tasks.
fn kinds(session: &mut Session, core: &Core, task: u8) {
    let (tasks, past) = core.tasks.split_at(core.count as usize);
    let places = |test: &dyn Fn(&Task) -> bool| -> u128 {
        let places = (0..tasks.len()).filter(|&place| test(&tasks[place]));
        places.map(|place| 1 << place).sum()
    };
    let mut saw = |kind, places| session.saw_at("tick_row", kind, places);
    let served = places(&|other| other.number == task);
    if core.stroke_left > 0 {
        saw(IN_STROKE, served);
        // a bit below that of the task
        if places(&|task| task.left > 0) & (served - 1) != 0 {
            saw(HELD, served);
        }
    } else {
        saw(SERVED, served);
        saw(
            BEGINS,
            served & places(&|task| task.stroke > 1 && task.left > 1),
        );
    }
    saw(AT_PERIOD, places(&|task| task.age == task.period));
    saw(ONE_BELOW, places(&|task| task.age + 1 == task.period));
    saw(FAR_BELOW, places(&|task| task.age + 255 < task.period));
    if task == IDLE {
        saw(IDLE_OF, 1 << tasks.len());
        if past.iter().any(|task| task.left > 0) {
            saw(IDLE_PAST, 1 << tasks.len());
        }
    }
}
