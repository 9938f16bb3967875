//! Mistakes about strokes.

use reference::*;

type Wrong = fn(u32) -> bool;

/// The answer of a checker with one of these mistakes. In rule 14, 58: B left
/// out. 59: B of all tasks of the core. 60: B of the tasks above. 61: q for
/// q - 1. 62: B not multiplied by D. 63: B at the last task only. 64: the place
/// is the task. In rule 25, 65: before Budget. 66: after Core. 67: q 0 let
/// through. 68: q above the budget let through. 69: no place. 70: byte 5 of a
/// task still spare. 71: byte 2 of a core not spare. 72: version 3 refused.
pub fn checked(sheet: &[u8], answer: CheckAnswer, wrong: Wrong) -> CheckAnswer {
    let Some((n, c)) = counts(sheet) else {
        return answer;
    };
    let figures = Sheet::read(sheet, n, c);
    let tasks = &figures.tasks;
    let first = |broken: fn(&TaskRecord) -> bool| tasks.iter().position(broken);
    let out_of_range = first(|task| task.stroke == 0 || task.stroke > task.budget);
    let changed = |change: &dyn Fn(&TaskRecord) -> u64| {
        let mut bytes = sheet.to_vec();
        for (i, task) in tasks.iter().enumerate() {
            bytes[8 + 10 * i + 5] = change(task) as u8;
        }
        check(&bytes)
    };
    match answer.refusal {
        0 | 14 if (58..=64).any(wrong) => rule_14(&figures, wrong),
        8 if wrong(65) => out_of_range.map_or(answer, |task| refused(25, task)),
        25 if wrong(66) => {
            let missing = tasks.iter().position(|task| task.core >= c);
            missing.map_or(answer, |task| refused(9, task))
        }
        25 if wrong(67) => changed(&|task| task.stroke.max(1)),
        25 if wrong(68) => changed(&|task| task.stroke.min(task.budget)),
        25 if wrong(69) => refused(25, 0),
        0 | 7.. if wrong(70) => {
            let used = tasks.iter().position(|task| task.stroke > 0);
            used.map_or(answer, |task| refused(6, 8 + 10 * task + 5))
        }
        6 if wrong(71) => {
            let mut bytes = sheet.to_vec();
            (0..c).for_each(|core| bytes[8 + 10 * n + 8 * core + 2] = 0);
            check(&bytes)
        }
        _ if wrong(72) => refused(3, 0),
        _ => answer,
    }
}

/// The counts of a version 3 sheet of the right length.
fn counts(sheet: &[u8]) -> Option<(usize, usize)> {
    if sheet.len() < 8 || !sheet.starts_with(b"TSH\x03\x00") {
        return None;
    }
    let (n, c) = (sheet[5] as usize, sheet[6] as usize);
    (n <= 64 && c <= 8 && sheet.len() == 8 + 10 * n + 8 * c).then_some((n, c))
}

fn refused(refusal: u8, place: usize) -> CheckAnswer {
    CheckAnswer {
        refusal,
        place: place as u16,
        ..CheckAnswer::default()
    }
}

/// Rule 14 with a mistake, of a sheet to which no other applies.
fn rule_14(sheet: &Sheet, wrong: Wrong) -> CheckAnswer {
    for (number, core) in sheet.cores.iter().enumerate() {
        let order = sheet.by_priority(number);
        let stroke = |&i: &usize| sheet.tasks[i].stroke;
        let longest = |tasks: &[usize]| tasks.iter().map(stroke).max().unwrap_or(1);
        for (place, &i) in order.iter().enumerate() {
            let (above, below) = (&order[..place], &order[place + 1..]);
            let blocking = match longest(below) - 1 {
                _ if wrong(58) => 0,
                _ if wrong(59) => longest(&order) - 1,
                _ if wrong(60) => longest(above) - 1,
                _ if wrong(61) && !below.is_empty() => longest(below),
                _ if wrong(63) && below.is_empty() => longest(&order) - 1,
                _ if wrong(63) => 0,
                blocking => blocking,
            };
            let factor = sheet.tasks[i].factor;
            let demand = |&j: &usize| sheet.tasks[j].budget * (factor / sheet.tasks[j].factor);
            let demands: u64 = order[..=place].iter().map(demand).sum();
            let ticks = match wrong(62) {
                true => demands * core.divisor + blocking,
                false => (demands + blocking) * core.divisor,
            };
            if ticks > core.pivot * factor {
                return refused(14, if wrong(64) { i } else { 64 + number });
            }
        }
    }
    CheckAnswer {
        tasks: sheet.tasks.len() as u8,
        cores: sheet.cores.len() as u8,
        ..CheckAnswer::default()
    }
}

/// A start with one of these mistakes. 73: strokes of one tick. 74: strokes of
/// none on the bench.
pub fn started(mut core: Core, wrong: Wrong) -> Core {
    let stroke = match (wrong(73), wrong(74)) {
        (true, _) => 1,
        (_, true) => 0,
        _ => return core,
    };
    let count = core.count as usize;
    core.tasks[..count]
        .iter_mut()
        .for_each(|task| task.stroke = stroke);
    core
}

/// A listing with one of these mistakes. 75: version 3 as version 1. 76: the
/// load with the largest B.
pub fn listed(sheet: &[u8], text: Vec<u8>, wrong: Wrong) -> Vec<u8> {
    let (Some(_), Ok(figures)) = (counts(sheet), accept(sheet)) else {
        return text;
    };
    let mut text = String::from_utf8(text).expect("a listing is ASCII");
    if wrong(75) {
        text = text.replace("TSH 3", "TSH 1");
    }
    if wrong(76) {
        for (k, core) in figures.cores.iter().enumerate() {
            let line = |load: u128| {
                let CoreRecord { pivot, divisor } = core;
                format!("core {k} pivot {pivot} divisor {divisor} load {load}\n")
            };
            let blocking = figures.by_priority(k).into_iter();
            let blocking = blocking.map(|i| figures.blocking(i)).max().unwrap_or(0);
            let load = figures.load(k).times(1000).ceil();
            let more = 1000 * blocking as u128 / core.pivot as u128;
            text = text.replace(&line(load), &line(load + more));
        }
    }
    text.into_bytes()
}

/// The mover with one of these mistakes. 77: version 3 moved as version 1 is.
/// 78: its 3 after the checker's refusals.
pub fn moved(sheet: &[u8], out: &mut [u8], wrong: Wrong) -> Option<MoveAnswer> {
    counts(sheet)?;
    if wrong(77) {
        let moved = accept(sheet).ok()?.write_grouped();
        out.get_mut(..LONGEST_SHEET)?[..moved.len()].copy_from_slice(&moved);
        return Some(MoveAnswer {
            length: moved.len() as u16,
            ..MoveAnswer::default()
        });
    }
    let CheckAnswer { refusal, place, .. } = check(sheet);
    (wrong(78) && refusal != 0).then_some(MoveAnswer {
        refusal,
        place,
        length: 0,
    })
}

/// A release with one of these mistakes. 79: it ends a stroke. 80: strokes are
/// not looked at for Foreign.
pub fn released(core: Core, number: u64, wrong: Wrong) -> CoreAnswer {
    let mut answer = release(core, number);
    if wrong(79) && answer.refusal == 0 {
        end_stroke(&mut answer.core);
    }
    if wrong(80) && answer.refusal == 21 {
        answer = release(without_strokes(core), number);
    }
    answer
}

/// A finish with one of these mistakes. 81: its stroke goes on. 82: every stroke
/// ends. 83: the number of its stroke stands. 84: strokes are not looked at for
/// Foreign. 85: a refused finish ends a stroke.
pub fn finished(core: Core, number: u64, wrong: Wrong) -> CoreAnswer {
    let mut answer = finish(core, number);
    if answer.refusal == 0 {
        if wrong(81) {
            answer.core.stroke_task = core.stroke_task;
            answer.core.stroke_left = core.stroke_left;
        }
        if wrong(82) {
            end_stroke(&mut answer.core);
        }
        if wrong(83) {
            answer.core.stroke_task = core.stroke_task;
        }
    }
    if wrong(84) && answer.refusal == 21 {
        answer = finish(without_strokes(core), number);
    }
    if wrong(85) && matches!(answer.refusal, 17 | 20) {
        end_stroke(&mut answer.core);
    }
    answer
}

fn end_stroke(core: &mut Core) {
    (core.stroke_task, core.stroke_left) = (0, 0);
}

/// The state with strokes of one tick, of which none lasts.
fn without_strokes(mut core: Core) -> Core {
    core.tasks.iter_mut().for_each(|task| task.stroke = 1);
    end_stroke(&mut core);
    core
}

/// A tick with one of these mistakes. 86: a stroke of q + 1 ticks. 87: of q - 1.
/// 88: not cut to the job. 89: broken by a task above. 90: its number stands
/// after its last tick. 91: a stroke of task 0 is none. 92: ages stand in a
/// stroke. 93: a stroke may begin in a stroke. 94 to 101: a reason for Foreign
/// not looked at.
pub fn ticked(core: Core, wrong: Wrong) -> TickAnswer {
    let mut answer = tick(core);
    if answer.refusal == 21 {
        return tick(mended(core, wrong));
    }
    let lasted = core.stroke_left > 0;
    let mut ended = core;
    end_stroke(&mut ended);
    if lasted && (wrong(89) || wrong(91) && core.stroke_task == 0) {
        return tick(ended);
    }
    if lasted && wrong(92) {
        for (task, before) in answer.core.tasks.iter_mut().zip(&core.tasks) {
            task.age = before.age;
        }
    }
    if lasted && wrong(90) && answer.core.stroke_left == 0 {
        answer.core.stroke_task = core.stroke_task;
    }
    let served = core.used().iter().find(|task| task.number == answer.task);
    if let Some(task) = served {
        let (stroke, left) = (task.stroke as u16, task.left);
        let ticks = match lasted {
            false if wrong(86) => (stroke + 1).min(left),
            false if wrong(87) => (stroke - 1).clamp(1, left),
            false if wrong(88) => stroke,
            true if wrong(93) => stroke.min(left),
            _ => return answer,
        };
        end_stroke(&mut answer.core);
        if ticks > 1 {
            answer.core.stroke_left = (ticks - 1).min(255) as u8;
            answer.core.stroke_task = task.number;
        }
    }
    answer
}

/// A Foreign state in form but for the other reasons. 94: a stroke length of 0.
/// 95: one above the budget. 96: a stroke of no task of the core. 97: of a task
/// past the count. 98: of a task that is not pending. 99: more ticks left than
/// the length less 1. 100: more than the job. 101: a number without ticks left.
fn mended(mut core: Core, wrong: Wrong) -> Core {
    let count = core.count.min(64) as usize;
    let (number, ticks) = (core.stroke_task, core.stroke_left);
    let (tasks, past) = core.tasks.split_at_mut(count);
    let no_task = tasks.iter().all(|task| task.number != number);
    let is_past = past
        .iter()
        .any(|task| task.number == number && task.left >= ticks as u16);
    for task in tasks.iter_mut() {
        if wrong(94) {
            task.stroke = task.stroke.max(1);
        }
        if wrong(95) {
            task.stroke = task.stroke.min(task.budget.min(255) as u8);
        }
    }
    let named = tasks.iter().find(|task| task.number == number).copied();
    let quiet = named.is_some_and(|task| task.left == 0);
    let ends = ticks > 0
        && (wrong(96) && no_task || wrong(97) && no_task && is_past || wrong(98) && quiet);
    if ends || wrong(101) && ticks == 0 {
        end_stroke(&mut core);
    }
    if let (Some(task), 1..) = (named, ticks) {
        if wrong(99) {
            core.stroke_left = ticks.min(task.stroke.max(1) - 1);
        }
        if wrong(100) && task.left > 0 {
            core.stroke_left = (ticks as u16).min(task.left) as u8;
        }
        if core.stroke_left == 0 {
            end_stroke(&mut core);
        }
    }
    core
}

/// A row with one of these mistakes. 102: a stroke broken by a task above. 103:
/// strokes that last as they were. 104: strokes not looked at for Foreign.
pub fn ticked_row(row: &mut [Core], answers: &mut [u8], wrong: Wrong) -> Option<RowAnswer> {
    let before = row.to_vec();
    let all_in_form = before.iter().all(|&core| tick(core).refusal != 21);
    if wrong(102) && all_in_form {
        row.iter_mut().for_each(end_stroke);
        return Some(tick_row(row, answers));
    }
    if wrong(103) && all_in_form {
        let answer = tick_row(row, answers);
        for (core, before) in row.iter_mut().zip(&before) {
            core.stroke_task = before.stroke_task;
            core.stroke_left = before.stroke_left;
        }
        return Some(answer);
    }
    if wrong(104) && !all_in_form {
        let mut others: Vec<Core> = before.iter().map(|&core| without_strokes(core)).collect();
        return Some(tick_row(&mut others, answers));
    }
    None
}
