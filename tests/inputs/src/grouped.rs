//! Random sheets of version 2 and their damages.

use crate::sheets::{get16, put16, random_of_version, Places};
use crate::{damaged_sheet, handmade_sheet, likely_sheet, planned_sheet, Rng, SHEET_DAMAGES};
use reference::Sheet;

/// An accepted sheet of version 2.
pub fn grouped_sheet(rng: &mut Rng) -> Vec<u8> {
    let sheet = match rng.below(3) {
        0 => planned_sheet(rng),
        _ => handmade_sheet(rng),
    };
    regrouped(&sheet).expect("an accepted sheet has the cores of its tasks")
}

/// The version 2 sheet with the tasks and cores of a version 1 sheet, accepted
/// or not, that has the right length and the cores of its tasks.
pub fn regrouped(bytes: &[u8]) -> Option<Vec<u8>> {
    let Places { tasks, cores } = Places::of(bytes)?;
    let sheet = Sheet::read(bytes, tasks, cores);
    let there = sheet.tasks.iter().all(|task| task.core < cores);
    there.then(|| sheet.write_grouped())
}

/// A sheet of version 2 of the right length whose fields are in range or nearly
/// so, mostly in order.
pub fn likely_grouped(rng: &mut Rng) -> Vec<u8> {
    let mut bytes = likely_sheet(rng);
    let in_order = regrouped(&bytes);
    if let (Some(grouped), 0..3) = (in_order, rng.below(4)) {
        return grouped;
    }
    let places = Places::of(&bytes).expect("the length is right");
    let (n, c) = (places.tasks, places.cores);
    let mut numbers: Vec<u8> = (0..n as u8).collect();
    rng.shuffle(&mut numbers);
    let mut ends: Vec<u8> = (1..c).map(|_| rng.index(n + 1) as u8).collect();
    ends.sort_unstable();
    ends.push(n as u8);
    bytes[3] = 2;
    for (position, number) in numbers.into_iter().enumerate() {
        bytes[places.task(position) + 4] = number;
    }
    for core in 0..c {
        let begin = core.checked_sub(1).map_or(0, |before| ends[before]);
        bytes[places.core(core) + 2] = ends[core] - begin;
    }
    bytes
}

/// Random bytes that begin like a sheet of version 2; every second time with
/// counts that give their length, where there are such, and zeros as spare
/// bytes.
pub fn random_grouped(rng: &mut Rng, length: usize) -> Vec<u8> {
    random_of_version(rng, length, 2)
}

const OWN_DAMAGES: usize = 14;

pub const GROUPED_DAMAGES: usize = OWN_DAMAGES + SHEET_DAMAGES;

/// A version 2 sheet with one kind of damage, which may leave it in order: of
/// what version 2 adds, or of what all versions have. A sheet without the
/// field in question gets a random byte.
pub fn damaged_grouped(rng: &mut Rng, sheet: &[u8], kind: usize) -> Vec<u8> {
    if kind >= OWN_DAMAGES {
        return damaged_sheet(rng, sheet, kind - OWN_DAMAGES);
    }
    let mut bytes = sheet.to_vec();
    if !damage(rng, &mut bytes, kind) && !bytes.is_empty() {
        let at = rng.index(bytes.len());
        bytes[at] = rng.byte();
    }
    bytes
}

/// Do the damage; false where the sheet has no such field.
fn damage(rng: &mut Rng, bytes: &mut Vec<u8>, kind: usize) -> bool {
    let Some(places) = Places::of(bytes) else {
        return false;
    };
    let (n, c) = (places.tasks, places.cores);
    if n < 2 || c == 0 || (matches!(kind, 4..7) && c < 2) {
        return false;
    }
    let position = rng.index(n);
    let (task, other) = (places.task(position), places.task(rng.index(n)));
    // two positions side by side, mostly of one core
    let next = places.task((position + 1).min(n - 1));
    // two cores side by side
    let (low, high) = {
        let core = rng.index(c.max(2) - 1);
        (places.core(core), places.core((core + 1).min(c - 1)))
    };
    match kind {
        // numbers
        0 => bytes[task + 4] = bytes[other + 4],
        1 => {
            let n = n as u8;
            bytes[task + 4] = rng.pick(&[n, n + 1, 63, 64, 128, 255]);
        }
        2 => bytes.swap(task + 4, other + 4),
        // counts
        3 => {
            let count = &mut bytes[low + 2];
            *count = rng.pick(&[0, count.wrapping_sub(1), count.wrapping_add(1), 255]);
        }
        // right in eight bits only
        4 => {
            for at in [low + 2, high + 2] {
                bytes[at] = bytes[at].wrapping_add(128);
            }
        }
        // tasks given to the next core, or taken from it
        5 => {
            let both = bytes[low + 2] as u64 + bytes[high + 2] as u64;
            let count = rng.range(0, both) as u8;
            bytes[high + 2] = (both - count as u64) as u8;
            bytes[low + 2] = count;
        }
        // all of them, in order: a core is bare
        6 => merge(rng, bytes, &places, low, high),
        // order
        7 => swap_records(bytes, task, next),
        8 => swap_records(bytes, task, other),
        9 => {
            let period = get16(bytes, task);
            let budget = get16(bytes, next + 2).min(period);
            put16(bytes, next, period);
            put16(bytes, next + 2, budget);
            if (bytes[task + 4] < bytes[next + 4]) == rng.once_in(2) {
                bytes.swap(task + 4, next + 4);
            }
        }
        // the rest
        10 => {
            bytes.truncate(places.core(0));
            bytes[6] = 0;
        }
        11 => {
            let at = rng.pick(&places.spares(2));
            bytes[at] = rng.pick(&[1, 128, 255]);
        }
        // the same fault twice, so that the order of the places tells
        12 => {
            let (field, number) = rng.pick(&[(0, 0), (0, 60_001), (2, 0), (6, 0), (8, 1), (8, 2)]);
            put16(bytes, task + field, number);
            put16(bytes, other + field, number);
        }
        _ => {
            for _ in 0..rng.range(2, 4) {
                let kind = rng.index(OWN_DAMAGES - 1);
                damage(rng, bytes, kind);
            }
        }
    }
    true
}

/// Give all tasks of two cores side by side to one of them, by priority.
fn merge(rng: &mut Rng, bytes: &mut [u8], places: &Places, low: usize, high: usize) {
    let count = |bytes: &[u8], core: usize| bytes[core + 2] as usize;
    let cores = (0..places.cores).map(|core| places.core(core));
    let before: usize = cores
        .take_while(|&core| core < low)
        .map(|core| count(bytes, core))
        .sum();
    let (begin, both) = (before, count(bytes, low) + count(bytes, high));
    let end = (begin + both).min(places.tasks);
    let mut records: Vec<Vec<u8>> = (begin..end)
        .map(|position| bytes[places.task(position)..][..10].to_vec())
        .collect();
    records.sort_by_key(|record| (get16(record, 0), record[4]));
    for (position, record) in (begin..end).zip(records) {
        bytes[places.task(position)..][..10].copy_from_slice(&record);
    }
    let (bare, full) = if rng.once_in(2) {
        (low, high)
    } else {
        (high, low)
    };
    (bytes[bare + 2], bytes[full + 2]) = (0, both as u8);
}

fn swap_records(bytes: &mut [u8], a: usize, b: usize) {
    for i in 0..10 {
        bytes.swap(a + i, b + i);
    }
}
