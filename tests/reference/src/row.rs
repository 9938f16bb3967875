//! A row of core states on one beat.

use crate::{tick, Core, RowAnswer, TickAnswer};

/// A tick for each state of the row: 24 Row if there are fewer answer bytes than
/// states, then 21 at the position of the first Foreign state. Each state and
/// its answer byte are what a tick on that state by itself gives; the answer
/// bytes past the row keep what they held. A refused row changes nothing.
pub fn tick_row(row: &mut [Core], answers: &mut [u8]) -> RowAnswer {
    if answers.len() < row.len() {
        return refused(24, 0);
    }
    let ticked: Vec<TickAnswer> = row.iter().map(|&core| tick(core)).collect();
    if let Some(first) = ticked.iter().position(|answer| answer.refusal == 21) {
        return refused(21, first);
    }
    for (position, answer) in ticked.into_iter().enumerate() {
        row[position] = answer.core;
        answers[position] = answer.task;
    }
    RowAnswer::default()
}

fn refused(refusal: u8, place: usize) -> RowAnswer {
    RowAnswer {
        refusal,
        place: place as u64,
    }
}
