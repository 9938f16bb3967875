//! A whole archive of sheets, drawn from a seed.

use crate::sheets::{get16, get32, put16, put32, Places};
use crate::*;

/// So many sheets of versions 1 to 3, accepted and refused; sheet i is made in
/// version i % 3 + 1. Of a hundred
///
/// - 45 are sound: six in ten have 64 tasks or, as often, 0 to 64, on 1 to 8
///   cores, most of which are full (load exactly one); others are planned, made
///   by hand with figures of every size, or as long as sheets get;
/// - 25 are such with one field at the bound of a rule or one past it, for each
///   rule (`at_bound`), so that some of them are accepted;
/// - 10 have one damage of another kind;
/// - 12 have two or three of these on top of each other, so that rules behind
///   the first are broken too;
/// - 5 have random fields that are in range or nearly so;
/// - 3 are random bytes.
pub fn archive(seed: u64, count: usize) -> Vec<Vec<u8>> {
    let mut rng = Rng::new(seed);
    let planned: Vec<Vec<u8>> = (0..300).map(|_| planned_sheet(&mut rng)).collect();
    (0..count)
        .map(|i| sheet(&mut rng, 1 + (i % 3) as u8, &planned))
        .collect()
}

fn sheet(rng: &mut Rng, version: u8, planned: &[Vec<u8>]) -> Vec<u8> {
    let kind = rng.below(100);
    if kind >= 97 {
        let length = rng.index(801);
        return match version {
            1 => random_bytes(rng, length),
            2 => random_grouped(rng, length),
            _ => random_strokes(rng, length),
        };
    }
    if kind >= 92 {
        return match version {
            1 => likely_sheet(rng),
            2 => likely_grouped(rng),
            _ => likely_strokes(rng),
        };
    }
    let mut bytes = sound(rng, version, planned);
    match kind {
        0..45 => {}
        45..70 => at_bound(rng, version, &mut bytes),
        70..80 => bytes = damaged(rng, version, &bytes),
        _ => {
            for _ in 0..rng.range(2, 3) {
                match rng.once_in(2) {
                    true => at_bound(rng, version, &mut bytes),
                    false => bytes = damaged(rng, version, &bytes),
                }
            }
        }
    }
    bytes
}

/// An accepted sheet.
fn sound(rng: &mut Rng, version: u8, planned: &[Vec<u8>]) -> Vec<u8> {
    let first = match rng.below(10) {
        0..6 => {
            let tasks = if rng.once_in(2) { 64 } else { rng.index(65) };
            let cores = rng.range(1, 8).min(tasks as u64) as usize;
            sized_sheet(rng, tasks, cores)
        }
        6..8 => planned[rng.index(planned.len())].clone(),
        8 => handmade_sheet(rng),
        _ => longest_sheet(rng),
    };
    in_version(rng, version, &first)
}

/// A sheet of this version with the tasks and cores of an accepted one of
/// version 1.
pub fn in_version(rng: &mut Rng, version: u8, sheet: &[u8]) -> Vec<u8> {
    match version {
        1 => sheet.to_vec(),
        2 => regrouped(sheet).expect("the sheet is accepted"),
        _ => with_strokes(rng, sheet),
    }
}

fn damaged(rng: &mut Rng, version: u8, sheet: &[u8]) -> Vec<u8> {
    match version {
        1 => {
            let kind = rng.index(SHEET_DAMAGES);
            damaged_sheet(rng, sheet, kind)
        }
        2 => {
            let kind = rng.index(GROUPED_DAMAGES);
            damaged_grouped(rng, sheet, kind)
        }
        _ => {
            let kind = rng.index(STROKE_DAMAGES);
            damaged_strokes(rng, sheet, kind)
        }
    }
}

/// Put one field at the bound of a rule or one past it; for rules without a
/// bound, one small damage. A sheet that has no such field stays as it is.
fn at_bound(rng: &mut Rng, version: u8, bytes: &mut Vec<u8>) {
    let Some(places) = Places::of(bytes) else {
        return;
    };
    let (n, c) = (places.tasks, places.cores);
    let kinds = match version {
        _ if n == 0 || c == 0 => 7,
        1 => 17,
        _ => 22,
    };
    let task = places.task(rng.index(n.max(1)));
    let core = rng.index(c.max(1));
    let figures = places.core(core);
    match rng.below(kinds) {
        // rules 1 to 5
        0 => bytes.truncate(rng.pick(&[0, 7, 8])),
        1 => {
            let letter = &mut bytes[rng.index(3)];
            *letter = letter.wrapping_add(rng.pick(&[1, 255]));
        }
        2 => {
            let other = rng.pick(&[0, 1, 2, 3, 4, 256 + version as u64, 65_535]);
            put16(bytes, 3, other);
        }
        3 => most_records(rng, bytes, &places),
        4 => {
            let count = &mut bytes[5 + rng.index(2)];
            *count = count.wrapping_add(rng.pick(&[1, 255]));
        }
        5 => match rng.once_in(2) {
            true => bytes.push(0),
            false => drop(bytes.pop()),
        },
        // 6: mostly any spare byte, else the first or the last
        6 => {
            let spares = places.spares(version);
            let any = rng.pick(&spares);
            let at = rng.pick(&[any, any, spares[0], spares[spares.len() - 1]]);
            bytes[at] = 1 << rng.below(8);
        }
        7 => put16(bytes, task, rng.pick(&[0, 1, 60_000, 60_001])),
        8 => {
            let period = get16(bytes, task);
            put16(bytes, task + 2, rng.pick(&[0, 1, period, period + 1]));
        }
        // 9, and the numbers of 23
        9 => {
            let end = if version == 2 { n } else { c } as u8;
            bytes[task + 4] = rng.pick(&[end, end, end - 1]);
        }
        10 => bare_core(rng, version, bytes, &places),
        // 11
        11 => put32(bytes, task + 6, rng.pick(&[0, 1, 120_000, 120_001])),
        12 => put16(bytes, figures, rng.pick(&[0, 1, 60_000, 60_001])),
        13 => put32(bytes, figures + 4, rng.pick(&[0, 1, 120_000, 120_001])),
        14 => stretch(rng, version, bytes, &places, core),
        // 13
        15 => {
            let factor = get32(bytes, task + 6);
            put32(bytes, task + 6, factor.max(2) - 1);
        }
        16 => load(rng, version, bytes, &places, core),
        // 23
        _ if version == 2 => {
            let kind = rng.index(GROUPED_DAMAGES - SHEET_DAMAGES);
            *bytes = damaged_grouped(rng, bytes, kind);
        }
        // 25, and 14 by a stroke
        _ => {
            let kind = rng.index(STROKE_DAMAGES - SHEET_DAMAGES);
            *bytes = damaged_strokes(rng, bytes, kind);
        }
    }
}

/// As many tasks or cores as there may be, or one more, in a sheet of the right
/// length: the last record comes again.
fn most_records(rng: &mut Rng, bytes: &mut Vec<u8>, places: &Places) {
    let (count, end, length, most) = match rng.once_in(2) {
        true => (places.tasks, places.core(0), 10, 64),
        false => (places.cores, bytes.len(), 8, 8),
    };
    if count == 0 || count > most {
        return;
    }
    let last = bytes[end - length..end].to_vec();
    let more = most + rng.index(2) - count;
    bytes.splice(end..end, last.repeat(more));
    bytes[if most == 64 { 5 } else { 6 }] += more as u8;
}

/// One more core, without tasks.
fn bare_core(rng: &mut Rng, version: u8, bytes: &mut Vec<u8>, places: &Places) {
    if places.cores == 8 {
        return;
    }
    let number = rng.index(places.cores + 1);
    let at = places.core(number);
    let mut record = bytes[places.core(0)..][..8].to_vec();
    record[2] = 0;
    bytes.splice(at..at, record);
    bytes[6] += 1;
    if version != 2 {
        for task in 0..places.tasks {
            let core = &mut bytes[places.task(task) + 4];
            *core = core.saturating_add((*core as usize >= number) as u8);
        }
    }
}

/// A core's tasks by priority, as offsets of their records.
fn by_priority(version: u8, bytes: &[u8], places: &Places, core: usize) -> Vec<usize> {
    let begin = |core: usize| -> usize {
        let counts = (0..core).map(|core| bytes[places.core(core) + 2] as usize);
        counts.sum::<usize>().min(places.tasks)
    };
    let on_core = |&i: &usize| match version {
        2 => (begin(core)..begin(core + 1)).contains(&i),
        _ => bytes[places.task(i) + 4] as usize == core,
    };
    let mut tasks: Vec<usize> = (0..places.tasks)
        .filter(on_core)
        .map(|i| places.task(i))
        .collect();
    if version != 2 {
        tasks.sort_by_key(|&at| (get16(bytes, at), at));
    }
    tasks
}

/// The first task of a core with the shortest period that acceleration leaves,
/// or one less; or a pivot one above, or a divisor one below, what it was.
fn stretch(rng: &mut Rng, version: u8, bytes: &mut [u8], places: &Places, core: usize) {
    let figures = places.core(core);
    let (pivot, divisor) = (get16(bytes, figures), get32(bytes, figures + 4));
    match rng.below(4) {
        0 => put16(bytes, figures, pivot + 1),
        1 => put32(bytes, figures + 4, divisor.max(2) - 1),
        _ => {
            let tasks = by_priority(version, bytes, places, core);
            let Some(&task) = tasks.first() else {
                return;
            };
            let accelerated = pivot * get32(bytes, task + 6);
            let shortest = accelerated.div_ceil(divisor.max(1)).min(60_000);
            put16(bytes, task, shortest.saturating_sub(rng.below(2)));
        }
    }
}

/// The last task of a core with the largest budget that the others leave, or one
/// tick more.
fn load(rng: &mut Rng, version: u8, bytes: &mut [u8], places: &Places, core: usize) {
    let figures = places.core(core);
    let (pivot, divisor) = (get16(bytes, figures), get32(bytes, figures + 4));
    let tasks = by_priority(version, bytes, places, core);
    let factor = |at: usize| get32(bytes, at + 6);
    let Some((&last, others)) = tasks.split_last() else {
        return;
    };
    if divisor == 0 || tasks.iter().any(|&at| factor(at) == 0) {
        return;
    }
    // factors and divisors may be out of range
    let cost = |&at: &usize| {
        get16(bytes, at + 2) as u128 * (factor(last) / factor(at)) as u128 * divisor as u128
    };
    let used: u128 = others.iter().map(cost).sum();
    let most = ((pivot * factor(last)) as u128).saturating_sub(used) / divisor as u128;
    put16(bytes, last + 2, most.min(60_000) as u64 + rng.below(2));
}
