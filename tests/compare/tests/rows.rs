//! A refused row writes nothing, not even the bytes that are there already: its
//! states and answer bytes are constants here, in memory that cannot be written.
//! A write ends the test by a signal.

use reference::{Core, RowAnswer, Task};

/// A state with a pending task in its stroke.
const BUSY: Core = {
    let mut core = Core::EMPTY;
    core.count = 1;
    core.tasks[0] = Task {
        period: 5,
        budget: 2,
        age: 1,
        left: 1,
        number: 3,
        stroke: 2,
    };
    (core.stroke_task, core.stroke_left) = (3, 1);
    core
};

const FOREIGN: Core = {
    let mut core = BUSY;
    core.tasks[0].left = 3;
    core
};

/// By its stroke alone.
const FOREIGN_STROKE: Core = {
    let mut core = BUSY;
    core.stroke_task = 0;
    core
};

static IN_FORM: [Core; 3] = [BUSY, Core::EMPTY, BUSY];
static FIRST: [Core; 3] = [FOREIGN, BUSY, BUSY];
static LAST: [Core; 3] = [BUSY, BUSY, FOREIGN];
static BY_STROKE: [Core; 3] = [BUSY, FOREIGN_STROKE, BUSY];
static ALL: [Core; 3] = [FOREIGN; 3];
// what the answers would be
static ANSWERS: [u8; 4] = [3, 255, 3, 255];

#[track_caller]
fn refused(row: &'static [Core], room: usize, refusal: u8, place: u64) {
    let (states, answers) = (row.as_ptr().cast_mut(), ANSWERS.as_ptr().cast_mut());
    assert!(room <= ANSWERS.len());
    let answer = unsafe { binding::homvaits_tick_row(states, row.len(), answers, room) };
    assert_eq!(answer, RowAnswer { refusal, place });
}

#[test]
fn a_refused_row_writes_nothing() {
    for room in 0..3 {
        for row in [&IN_FORM, &FIRST, &LAST, &BY_STROKE, &ALL] {
            refused(row, room, 24, 0);
        }
    }
    for room in 3..=4 {
        refused(&FIRST, room, 21, 0);
        refused(&LAST, room, 21, 2);
        refused(&BY_STROKE, room, 21, 1);
        refused(&ALL, room, 21, 0);
    }
}
