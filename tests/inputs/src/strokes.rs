//! Random sheets of version 3 and their damages.

use crate::sheets::{get16, put16, random_of_version, Places};
use crate::{damaged_sheet, handmade_sheet, likely_sheet, planned_sheet, Rng, SHEET_DAMAGES};
use reference::Sheet;

/// An accepted sheet of version 3.
pub fn stroke_sheet(rng: &mut Rng) -> Vec<u8> {
    let sheet = match rng.below(3) {
        0 => planned_sheet(rng),
        _ => handmade_sheet(rng),
    };
    with_strokes(rng, &sheet)
}

/// An accepted sheet of version 3 with the tasks and cores of one of version 1,
/// some with lower budgets. Many of its tasks have strokes of several ticks,
/// often the longest for which the tasks above leave room.
pub fn with_strokes(rng: &mut Rng, bytes: &[u8]) -> Vec<u8> {
    let mut sheet = figures(bytes).expect("an accepted sheet has its length");
    if !rng.once_in(4) {
        lighten(rng, &mut sheet);
    }
    let rooms = rooms(&sheet).expect("the sheet is accepted");
    for (task, room) in sheet.tasks.iter_mut().zip(rooms) {
        let most = room.saturating_add(1).min(task.budget).min(255);
        let any = rng.range(1, most);
        task.stroke = rng.pick(&[1, most, most, any]);
    }
    sheet.write_strokes()
}

/// The version 3 sheet with the tasks and cores of a version 1 sheet, accepted
/// or not, that has the right length, and strokes of one tick.
pub fn with_short_strokes(bytes: &[u8]) -> Option<Vec<u8>> {
    Some(figures(bytes)?.write_strokes())
}

fn figures(bytes: &[u8]) -> Option<Sheet> {
    let Places { tasks, cores } = Places::of(bytes)?;
    Some(Sheet::read(bytes, tasks, cores))
}

/// Lower budgets, most of them of tasks with others below, for room.
fn lighten(rng: &mut Rng, sheet: &mut Sheet) {
    for core in 0..sheet.cores.len() {
        let mut order = sheet.by_priority(core);
        if !rng.once_in(4) {
            order.pop();
        }
        let divisor = rng.pick(&[1, 2, 10]);
        for i in order {
            let most = (sheet.tasks[i].budget / divisor).max(1);
            sheet.tasks[i].budget = rng.range(1, most);
        }
    }
}

/// For each task the most ticks that B of every task above it on its core may
/// have, where the cores are there and the factors form chains. Below a task
/// whose load is above one it is 0.
fn rooms(sheet: &Sheet) -> Option<Vec<u64>> {
    let mut rooms = vec![u64::MAX; sheet.tasks.len()];
    if sheet
        .tasks
        .iter()
        .any(|task| task.core >= sheet.cores.len())
    {
        return None;
    }
    for (number, core) in sheet.cores.iter().enumerate() {
        let (mut room, mut demand, mut factor) = (u64::MAX, 0u128, 1);
        for i in sheet.by_priority(number) {
            let task = &sheet.tasks[i];
            if core.divisor == 0 || task.factor == 0 || !task.factor.is_multiple_of(factor) {
                return None;
            }
            rooms[i] = room;
            demand *= (task.factor / factor) as u128;
            demand += task.budget as u128 * core.divisor as u128;
            factor = task.factor;
            let rest = (core.pivot as u128 * factor as u128).saturating_sub(demand);
            room = room.min((rest / core.divisor as u128) as u64);
        }
    }
    Some(rooms)
}

/// A sheet of version 3 of the right length whose fields are in range or nearly
/// so.
pub fn likely_strokes(rng: &mut Rng) -> Vec<u8> {
    let bytes = likely_sheet(rng);
    let mut sheet = figures(&bytes).expect("the length is right");
    let often_one = rng.once_in(2);
    for task in &mut sheet.tasks {
        let any = rng.range(1, task.budget.min(255));
        task.stroke = match rng.below(300) {
            0 => 0,
            1 => (task.budget + 1).min(255),
            2..150 if often_one => 1,
            _ => any,
        };
    }
    sheet.write_strokes()
}

/// Random bytes that begin like a sheet of version 3; every second time with
/// counts that give their length, where there are such, and zeros as spare
/// bytes.
pub fn random_strokes(rng: &mut Rng, length: usize) -> Vec<u8> {
    random_of_version(rng, length, 3)
}

const OWN_DAMAGES: usize = 16;

pub const STROKE_DAMAGES: usize = OWN_DAMAGES + SHEET_DAMAGES;

/// A version 3 sheet with one kind of damage, which may leave it in order: of
/// what version 3 adds, or of what all versions have. A sheet without the field
/// in question gets a random byte.
pub fn damaged_strokes(rng: &mut Rng, sheet: &[u8], kind: usize) -> Vec<u8> {
    if kind >= OWN_DAMAGES {
        return damaged_sheet(rng, sheet, kind - OWN_DAMAGES);
    }
    let mut bytes = sheet.to_vec();
    if !damage(rng, &mut bytes, kind) && !bytes.is_empty() {
        let at = rng.index(bytes.len());
        bytes[at] = rng.byte();
    }
    bytes
}

/// Do the damage; false where the sheet has no such field.
fn damage(rng: &mut Rng, bytes: &mut [u8], kind: usize) -> bool {
    let Some(places) = Places::of(bytes) else {
        return false;
    };
    if places.tasks == 0 || places.cores == 0 {
        return false;
    }
    let (number, second) = (rng.index(places.tasks), rng.index(places.tasks));
    let (task, other) = (places.task(number), places.task(second));
    let budget = get16(bytes, task + 2);
    let above = budget.saturating_add(1).min(255) as u8;
    match kind {
        0 => bytes[task + 5] = 0,
        1 => bytes[task + 5] = 1,
        2 => bytes[task + 5] = budget.min(255) as u8,
        3 => bytes[task + 5] = above,
        4 => bytes[task + 5] = 255,
        // the longest stroke for which the tasks above leave room, and one more
        // tick
        5 => return fit_stroke(rng, bytes, 1),
        6 => return fit_stroke(rng, bytes, 2),
        7 => {
            for number in 0..places.tasks {
                let task = places.task(number);
                let most = get16(bytes, task + 2).clamp(1, 255);
                bytes[task + 5] = rng.range(1, most) as u8;
            }
        }
        8 => bytes.swap(task + 5, other + 5),
        // the budget at the stroke, or beside it
        9 => {
            let stroke = bytes[task + 5] as u64;
            let budget = rng.pick(&[stroke, stroke.saturating_sub(1), stroke + 1]);
            put16(bytes, task + 2, budget);
        }
        // the same fault twice, so that the order of the places tells
        10 => {
            bytes[task + 5] = rng.pick(&[0, above]);
            bytes[other + 5] = 0;
        }
        // an earlier rule at another task, mostly a later one
        11 => {
            let (low, high) = (task.min(other), task.max(other));
            bytes[low + 5] = rng.pick(&[0, 255]);
            let (field, number) = rng.pick(&[(2, 0), (2, 65_535), (0, 0), (0, 60_001)]);
            put16(bytes, high + field, number);
        }
        // a later rule at another task, mostly an earlier one
        12 => {
            let (low, high) = (task.min(other), task.max(other));
            bytes[high + 5] = rng.pick(&[0, 255]);
            match rng.below(3) {
                0 => bytes[low + 4] = rng.pick(&[places.cores as u8, 255]),
                1 => put16(bytes, low + 6, 0),
                _ => put16(bytes, low + 8, 2),
            }
        }
        13 => {
            let at = rng.pick(&places.spares(3));
            bytes[at] = rng.pick(&[1, 128, 255]);
        }
        // too long a stroke, and a load above one, mostly of another core
        14 => {
            let period = get16(bytes, other);
            put16(bytes, other + 2, period);
            return fit_stroke(rng, bytes, 2);
        }
        _ => {
            for _ in 0..rng.range(2, 4) {
                let kind = rng.index(OWN_DAMAGES - 1);
                damage(rng, bytes, kind);
            }
        }
    }
    true
}

/// Give a task a stroke of the room that those above it leave and so many ticks
/// more; false where no budget allows that.
fn fit_stroke(rng: &mut Rng, bytes: &mut [u8], more: u64) -> bool {
    let Some((places, sheet)) = Places::of(bytes).zip(figures(bytes)) else {
        return false;
    };
    let Some(rooms) = rooms(&sheet) else {
        return false;
    };
    let stroke = |i: usize| rooms[i].saturating_add(more);
    let fits = |&i: &usize| stroke(i) <= sheet.tasks[i].budget.min(255);
    let tasks: Vec<usize> = (0..places.tasks).filter(fits).collect();
    if tasks.is_empty() {
        return false;
    }
    let i = rng.pick(&tasks);
    bytes[places.task(i) + 5] = stroke(i) as u8;
    true
}
