//! Accepted sheets with given counts.

use crate::sheets::order_equal_periods;
use crate::Rng;
use reference::{CoreRecord, Sheet, TaskRecord, LARGEST_FACTOR, LONGEST_PERIOD};

/// An accepted sheet of version 1 with so many tasks on so many cores, at most
/// one core for each task. Most cores are full: their load is exactly one.
pub fn sized_sheet(rng: &mut Rng, tasks: usize, cores: usize) -> Vec<u8> {
    assert!(cores <= tasks && (cores > 0 || tasks == 0));
    let mut counts = vec![1; cores];
    let even = rng.once_in(2);
    for i in cores..tasks {
        let core = if even { i % cores } else { rng.index(cores) };
        counts[core] += 1;
    }
    let mut sheet = Sheet {
        tasks: Vec::new(),
        cores: Vec::new(),
    };
    for (number, count) in counts.into_iter().enumerate() {
        let full = !rng.once_in(4);
        let (core, mut set) = sized_core(rng, count, full);
        set.iter_mut().for_each(|task| task.core = number);
        sheet.tasks.extend(set);
        sheet.cores.push(core);
    }
    rng.shuffle(&mut sheet.tasks);
    order_equal_periods(&mut sheet.tasks);
    sheet.write()
}

/// A core with so many tasks, by priority.
fn sized_core(rng: &mut Rng, count: u64, full: bool) -> (CoreRecord, Vec<TaskRecord>) {
    let (core, last) = figures(rng, count, full);
    let room = core.pivot * last;
    // the factors from the last to the first, as low as budgets of one tick
    // leave room for
    let mut shares = vec![1];
    let mut used = core.divisor;
    for left in (1..count).rev() {
        let share = shares[shares.len() - 1];
        let next = share * rng.pick(&[1, 1, 1, 1, 2, 2, 3, 5]);
        let fits = last.is_multiple_of(next) && used + left * core.divisor * next <= room;
        shares.push(if fits { next } else { share });
        used += core.divisor * shares[shares.len() - 1];
    }
    let mut left = room - used;
    let mut period = 1;
    let mut tasks = Vec::new();
    for (i, share) in shares.into_iter().rev().enumerate() {
        let factor = last / share;
        let accelerated = (core.pivot * factor).div_ceil(core.divisor);
        let slack = match rng.below(3) {
            0 => 0,
            1 => 1,
            _ => rng.below(accelerated),
        };
        period = period.max(accelerated + slack).min(LONGEST_PERIOD);
        // about an even part of what is left
        let cost = core.divisor * share;
        let behind = count - 1 - i as u64;
        let more = match behind {
            0 if full => left / cost,
            _ => rng.range(0, left / cost * 2 / (behind + 2)),
        };
        left -= more * cost;
        tasks.push(TaskRecord {
            period,
            budget: 1 + more,
            core: 0,
            stroke: 1,
            factor,
        });
    }
    (core, tasks)
}

/// A core's record and its last factor. The last accelerated period is at least
/// `count`, and whole where the core is to be full.
fn figures(rng: &mut Rng, count: u64, full: bool) -> (CoreRecord, u64) {
    loop {
        let pivot = match rng.below(4) {
            0 => rng.range(1, 12),
            1 => rng.range(1, 100),
            2 => rng.range(1, LONGEST_PERIOD),
            _ => LONGEST_PERIOD,
        };
        let last = match rng.below(4) {
            0 => 1 << rng.below(17),
            1 => 3u64.pow(rng.below(11) as u32),
            2 => rng.pick(&[LARGEST_FACTOR, 110_880, 5040, 720]),
            _ => rng.range(1, LARGEST_FACTOR),
        };
        let room = pivot * last;
        let any = rng.range(1, LARGEST_FACTOR);
        let part = last / rng.range(1, 12).min(last);
        let divisor = rng.pick(&[1, 2, 3, 8, last, part, pivot, any, LARGEST_FACTOR]);
        let accelerated = (count * divisor..=LONGEST_PERIOD * divisor).contains(&room);
        if accelerated && divisor <= LARGEST_FACTOR && (!full || room.is_multiple_of(divisor)) {
            return (CoreRecord { pivot, divisor }, last);
        }
    }
}
