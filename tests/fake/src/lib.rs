//! The C interface over the reference itself. With the feature `wrong` it
//! makes one deliberate mistake, which the harness must notice.

mod grouped;
mod rows;
mod strokes;

use reference::*;
use std::slice::{from_raw_parts, from_raw_parts_mut};

/// Whether the mistake with this number is to be made.
#[cfg(feature = "wrong")]
fn wrong(mistake: u32) -> bool {
    use std::sync::OnceLock;
    static CHOSEN: OnceLock<u32> = OnceLock::new();
    let read = || std::env::var("FAKE_WRONG").ok()?.parse().ok();
    *CHOSEN.get_or_init(|| read().unwrap_or(1)) == mistake
}

#[cfg(not(feature = "wrong"))]
fn wrong(_mistake: u32) -> bool {
    false
}

#[no_mangle]
pub extern "C" fn homvaits_layout() -> u32 {
    1
}

#[no_mangle]
pub extern "C" fn homvaits_layout_1() -> u32 {
    homvaits_layout()
}

/// # Safety
/// `sheet` has `len` bytes; so in all calls below.
#[no_mangle]
pub unsafe extern "C" fn homvaits_check(sheet: *const u8, len: usize) -> CheckAnswer {
    let mut answer = grouped::checked(from_raw_parts(sheet, len), wrong);
    // 1: overload overlooked. 2: the place of Bare without the 64. 3 to 9: in
    // version 2. 58 to 72: in version 3.
    if wrong(1) && answer.refusal == 14 {
        answer = CheckAnswer::default();
    }
    if wrong(2) && answer.refusal == 10 {
        answer.place -= 64;
    }
    strokes::checked(from_raw_parts(sheet, len), answer, wrong)
}

/// # Safety
/// See `homvaits_check`.
#[no_mangle]
pub unsafe extern "C" fn homvaits_plan(
    jobs: *const u8,
    len: usize,
    limit: u64,
    start: u64,
    out: *mut u8,
    out_len: usize,
) -> PlanAnswer {
    let (jobs, out) = (from_raw_parts(jobs, len), from_raw_parts_mut(out, out_len));
    // 10: a limit cut to a byte. 11: bytes past the sheet cleared. 12: bytes
    // written before a refusal. 13: No fit for each list. 14: no Sr on base 3.
    // 15: DCT before Sr on base 3.
    let limit = if wrong(10) { limit as u8 as u64 } else { limit };
    let [sr_2, sr_3, dct] = ROUNDS;
    let rounds: &[Round] = if wrong(14) {
        &[sr_2, dct]
    } else if wrong(15) {
        &[sr_2, dct, sr_3]
    } else {
        &ROUNDS
    };
    let answer = plan_by(rounds, jobs, limit, start, out);
    if wrong(11) && answer.refusal == 0 {
        out[answer.length as usize..].fill(0);
    }
    if wrong(12) && answer.refusal == 15 {
        out[0] = b'T';
    }
    if wrong(13) && answer.refusal == 0 {
        return PlanAnswer {
            refusal: 15,
            ..PlanAnswer::default()
        };
    }
    answer
}

/// # Safety
/// See `homvaits_check`.
#[no_mangle]
pub unsafe extern "C" fn homvaits_start(sheet: *const u8, len: usize, core: u64) -> CoreAnswer {
    let sheet = from_raw_parts(sheet, len);
    // 16: a core number cut to a byte. 17: a start that does nothing. 18: tasks
    // by position.
    let core = if wrong(16) { core as u8 as u64 } else { core };
    if wrong(18) {
        return grouped::started_by_position(sheet, core);
    }
    let mut answer = start_sheet(sheet, core);
    if wrong(17) {
        answer.core = Core::EMPTY;
    }
    if wrong(73) {
        answer.core = strokes::started(answer.core, wrong);
    }
    answer
}

/// # Safety
/// See `homvaits_check`.
#[no_mangle]
pub unsafe extern "C" fn homvaits_start_list(jobs: *const u8, len: usize) -> CoreAnswer {
    let mut answer = start_list(from_raw_parts(jobs, len));
    // 19: a place past the tasks not zero
    if wrong(19) && answer.core.count < 64 {
        answer.core.tasks[63].number = 63;
    }
    if wrong(74) {
        answer.core = strokes::started(answer.core, wrong);
    }
    answer
}

#[no_mangle]
pub extern "C" fn homvaits_release(core: Core, number: u64) -> CoreAnswer {
    let mut answer = strokes::released(core, number, wrong);
    // 20: every release Early. 21: no ticks left to the job. 79 and 80: about
    // strokes.
    if wrong(20) && answer.refusal == 0 {
        let place = number as u16;
        return CoreAnswer {
            refusal: 18,
            place,
            core,
        };
    }
    if wrong(21) && answer.refusal == 0 {
        let count = answer.core.count as usize;
        let tasks = answer.core.tasks[..count].iter_mut();
        tasks
            .filter(|task| task.number as u64 == number)
            .for_each(|task| task.left = 0);
    }
    answer
}

#[no_mangle]
pub extern "C" fn homvaits_finish(core: Core, number: u64) -> CoreAnswer {
    let mut answer = strokes::finished(core, number, wrong);
    // 22: the age counted from the end of the job. 81 to 85: about strokes.
    if wrong(22) && answer.refusal == 0 {
        let count = answer.core.count as usize;
        let tasks = answer.core.tasks[..count].iter_mut();
        tasks
            .filter(|task| task.number as u64 == number)
            .for_each(|task| task.age = 0);
    }
    answer
}

#[no_mangle]
pub extern "C" fn homvaits_tick(core: Core) -> TickAnswer {
    let mut answer = strokes::ticked(core, wrong);
    // 23: only the first task is served. 24: ages stand on idle ticks. 25: the
    // places past the tasks cleared. 86 to 101: about strokes.
    if wrong(23) && answer.refusal == 0 && core.count > 0 && core.tasks[0].left == 0 {
        answer.task = IDLE;
    }
    if wrong(24) && answer.task == IDLE {
        answer.core = core;
    }
    if wrong(25) && answer.refusal == 0 {
        answer.core.tasks[core.count as usize..].fill(Task::default());
    }
    answer
}

/// # Safety
/// `row` has `count` states, and `answers` has `answers_length` bytes.
#[no_mangle]
pub unsafe extern "C" fn homvaits_tick_row(
    row: *mut Core,
    count: usize,
    answers: *mut u8,
    answers_length: usize,
) -> RowAnswer {
    let row = from_raw_parts_mut(row, count);
    let answers = from_raw_parts_mut(answers, answers_length);
    match strokes::ticked_row(row, answers, wrong) {
        Some(answer) => answer,
        None => rows::ticked(row, answers, wrong),
    }
}

/// # Safety
/// See `homvaits_check`; `out` has `out_len` bytes.
#[no_mangle]
pub unsafe extern "C" fn homvaits_list(
    sheet: *const u8,
    len: usize,
    out: *mut u8,
    out_len: usize,
) -> ListAnswer {
    let (sheet, out) = (from_raw_parts(sheet, len), from_raw_parts_mut(out, out_len));
    // 26: the last line feed left out. 27: Tight by the text's length only.
    // 28: loads rounded down. 29: tasks by position. 30: each sheet as one of
    // version 1. 75 and 76: of version 3.
    if wrong(28) && out.len() >= LISTING_ROOM {
        return put(&loads_rounded_down(sheet), out);
    }
    if wrong(29) && out.len() >= LISTING_ROOM {
        return put(&grouped::listed_by_position(sheet), out);
    }
    if wrong(30) && out.len() >= LISTING_ROOM {
        return put(&grouped::listed_as_version_1(sheet), out);
    }
    if (wrong(75) || wrong(76)) && out.len() >= LISTING_ROOM {
        return put(&strokes::listed(sheet, list(sheet), wrong), out);
    }
    let mut answer = list_into(sheet, out);
    if wrong(26) && answer.refusal == 0 {
        answer.length -= 1;
    }
    if wrong(27) && answer.refusal == 16 {
        let text = list(sheet);
        if text.len() <= out.len() {
            answer = put(&text, out);
        }
    }
    answer
}

/// # Safety
/// See `homvaits_check`.
#[no_mangle]
pub unsafe extern "C" fn homvaits_margin(jobs: *const u8, len: usize, number: u64) -> MarginAnswer {
    let jobs = from_raw_parts(jobs, len);
    // 31: t / p rounded down. 32: of equal periods none above another. 33: a
    // missing tick as one to spare. 34: a number cut to a byte.
    let number = if wrong(34) {
        number as u8 as u64
    } else {
        number
    };
    let mut answer = margin(jobs, number);
    if wrong(31) && answer.refusal == 0 {
        answer.margin = rounded_down(jobs, number as usize);
    }
    if wrong(32) && answer.refusal == 0 {
        answer.margin = without_ties(jobs, number as usize);
    }
    if wrong(33) {
        answer.margin = answer.margin.abs();
    }
    answer
}

/// # Safety
/// See `homvaits_list`.
#[no_mangle]
pub unsafe extern "C" fn homvaits_move(
    sheet: *const u8,
    len: usize,
    out: *mut u8,
    out_len: usize,
) -> MoveAnswer {
    let (sheet, out) = (from_raw_parts(sheet, len), from_raw_parts_mut(out, out_len));
    match strokes::moved(sheet, out, wrong) {
        Some(answer) => answer,
        None => grouped::moved(sheet, out, wrong),
    }
}

fn put(text: &[u8], out: &mut [u8]) -> ListAnswer {
    out[..text.len()].copy_from_slice(text);
    ListAnswer {
        length: text.len() as u16,
        ..ListAnswer::default()
    }
}

/// The listing of these bytes, the loads rounded down.
fn loads_rounded_down(bytes: &[u8]) -> Vec<u8> {
    let text = list(bytes);
    let Ok(sheet) = accept(bytes) else {
        return text;
    };
    let mut text = String::from_utf8(text).expect("a listing is ASCII");
    for (k, core) in sheet.cores.iter().enumerate() {
        let load = sheet.load(k).times(1000);
        let line = |load: u128| {
            let CoreRecord { pivot, divisor } = core;
            format!("core {k} pivot {pivot} divisor {divisor} load {load}\n")
        };
        text = text.replace(&line(load.ceil()), &line(load.floor()));
    }
    text.into_bytes()
}

/// The margin with t / p rounded down.
fn rounded_down(list: &[u8], number: usize) -> i32 {
    let core = start_list(list).core;
    let named = |task: &&Task| task.number as usize == number;
    let task = core.used().iter().find(named).expect("the task is listed");
    let above = core.used().iter().take_while(|other| !named(other));
    let demand = |t: i32| {
        let asks = |other: &Task| other.budget as i32 * (t / other.period as i32);
        task.budget as i32 + above.clone().map(asks).sum::<i32>()
    };
    let period = task.period as i32;
    let met = (1..=period).find(|&t| demand(t) <= t);
    period - met.unwrap_or(demand(period))
}

/// The margin where the other tasks of the same period are left out.
fn without_ties(list: &[u8], number: usize) -> i32 {
    let entries: Vec<&[u8]> = list.chunks(4).collect();
    let tied = |&i: &usize| i != number && entries[i][..2] == entries[number][..2];
    let kept: Vec<usize> = (0..entries.len()).filter(|i| !tied(i)).collect();
    let others: Vec<u8> = kept.iter().flat_map(|&i| entries[i]).copied().collect();
    let place = kept.iter().position(|&i| i == number);
    margin(&others, place.expect("the task is kept") as u64).margin
}
