//! Mistakes about rows.

use reference::*;

/// A row with one of these mistakes. 42: Foreign before Row. 43: the states up
/// to the first Foreign one ticked. 44: the place counted from 1. 45: the place
/// of the last Foreign state. 46: one answer byte too many. 47: idle as 0. 48: a
/// refused row ages. 49: answers written before the Foreign state is found. 50:
/// the place cut to 8 bits. 51: the place cut to 16 bits. 52: the last state left
/// out. 53: an empty row refused. 54: a refused row writes a byte that belongs to
/// no field. 55: idle where the first pending task is at place 63. 56: an age at
/// place 63 that is not raised to its period. 57: the tick goes to the last
/// pending task.
pub fn ticked(row: &mut [Core], answers: &mut [u8], wrong: fn(u32) -> bool) -> RowAnswer {
    let count = row.len();
    let first = row.iter().position(is_foreign);
    if wrong(42) && answers.len() < count {
        if let Some(first) = first {
            return refused(21, first);
        }
    }
    if wrong(52) && count > 0 && first.is_none() && answers.len() >= count {
        return tick_row(&mut row[..count - 1], answers);
    }
    if wrong(53) && count == 0 {
        return refused(24, 0);
    }
    let before = row.to_vec();
    let mut answer = tick_row(row, answers);
    match (answer.refusal, first) {
        (0, _) => change_accepted(&before, row, answers, wrong),
        (21, Some(first)) => answer.place = change_foreign(row, answers, first, wrong),
        _ => {}
    }
    if answer.refusal != 0 && wrong(48) {
        row.iter_mut().for_each(age);
    }
    if answer.refusal != 0 && wrong(54) {
        row.iter_mut().for_each(mark);
    }
    answer
}

/// The mistakes in accepted rows.
fn change_accepted(before: &[Core], row: &mut [Core], answers: &mut [u8], wrong: fn(u32) -> bool) {
    let (answers, past) = answers.split_at_mut(row.len());
    if let (true, Some(byte)) = (wrong(46), past.first_mut()) {
        *byte = IDLE;
    }
    for ((before, core), answer) in before.iter().zip(row).zip(answers) {
        if wrong(47) && *answer == IDLE {
            *answer = 0;
        }
        change_ticked(before, core, answer, wrong);
    }
}

/// The mistakes in the tick of one state.
fn change_ticked(before: &Core, core: &mut Core, answer: &mut u8, wrong: fn(u32) -> bool) {
    let pending = |task: &Task| task.left > 0;
    let first = before.used().iter().position(pending);
    let last = before.used().iter().rposition(pending);
    let end = &before.tasks[63];
    if wrong(55) && first == Some(63) {
        core.tasks[63].left = end.left;
        *answer = IDLE;
    }
    if wrong(56) && before.count == 64 && end.age + 1 == end.period {
        core.tasks[63].age = end.age;
    }
    if let (true, Some(first), Some(last)) = (wrong(57), first, last) {
        core.tasks[first].left += 1;
        core.tasks[last].left -= 1;
        *answer = core.tasks[last].number;
    }
}

/// The mistakes in rows with a Foreign state, and the place.
fn change_foreign(
    row: &mut [Core],
    answers: &mut [u8],
    first: usize,
    wrong: fn(u32) -> bool,
) -> u64 {
    if wrong(43) {
        tick_row(&mut row[..first], answers);
    }
    if wrong(49) {
        tick_row(&mut row[..first].to_vec(), answers);
    }
    match first as u64 {
        place if wrong(44) => place + 1,
        _ if wrong(45) => row.iter().rposition(is_foreign).unwrap_or(first) as u64,
        place if wrong(50) => place as u8 as u64,
        place if wrong(51) => place as u16 as u64,
        place => place,
    }
}

fn is_foreign(core: &Core) -> bool {
    tick(*core).refusal == 21
}

fn refused(refusal: u8, place: usize) -> RowAnswer {
    RowAnswer {
        refusal,
        place: place as u64,
    }
}

/// The ages of a state as after a tick.
fn age(core: &mut Core) {
    let count = core.count.min(64) as usize;
    for task in &mut core.tasks[..count] {
        task.age = task.age.saturating_add(1).min(task.period);
    }
}

/// Write the first byte behind the stroke.
fn mark(core: &mut Core) {
    let core: *mut Core = core;
    unsafe { *core.cast::<u8>().add(650) ^= 1 };
}
