//! Random job lists.

use crate::Rng;

pub const JOB_DAMAGES: usize = 6;

/// A list of `count` jobs in range. Some lists fit few cores, some many.
pub fn job_list(rng: &mut Rng, count: usize) -> Vec<u8> {
    let style = rng.below(7);
    let base = rng.range(1, 40);
    // the load of a job is near 1 / crowd
    let crowd = rng.range(1, 2 * count as u64 + 1);
    let plain_budgets = rng.once_in(4);
    let mut list = Vec::new();
    for _ in 0..count {
        let period = period(rng, style, base);
        let budget = if plain_budgets {
            rng.range(1, period)
        } else {
            rng.range(1, (2 * period / crowd).clamp(1, period))
        };
        list.extend((period as u16).to_le_bytes());
        list.extend((budget as u16).to_le_bytes());
    }
    list
}

/// A list of `count` jobs with periods up to `longest`, and the number of the
/// last one by priority, whose budget is near what the others leave of its
/// period. Neither `count` nor `longest` is 0.
pub fn tight_list(rng: &mut Rng, count: usize, longest: u64) -> (Vec<u8>, u64) {
    let few = [(); 3].map(|()| rng.range(1, longest));
    let style = rng.below(3);
    let crowd = rng.range(count as u64, 4 * count as u64);
    let mut jobs: Vec<(u64, u64)> = Vec::new();
    for _ in 0..count {
        let period = match style {
            0 => rng.range(1, longest),
            // many equal ones
            1 => rng.pick(&few),
            // powers of two
            _ => {
                let bits = longest.ilog2() as u64;
                1 << (bits - rng.below(bits + 1).min(6))
            }
        };
        let budget = rng.range(1, (2 * period / crowd).clamp(1, period));
        jobs.push((period, budget));
    }
    let last = (0..count).max_by_key(|&i| jobs[i].0).unwrap_or(0);
    let period = jobs[last].0;
    let others = (0..count).filter(|&i| i != last).map(|i| jobs[i]);
    let taken: u64 = others.map(|(p, e)| e * period.div_ceil(p)).sum();
    let rest = period.saturating_sub(taken);
    jobs[last].1 = rng
        .pick(&[rest, rest, rest + 1, rest.max(1) - 1])
        .clamp(1, period);
    let entry = |&(p, e): &(u64, u64)| [(p as u16).to_le_bytes(), (e as u16).to_le_bytes()];
    let list = jobs.iter().flat_map(entry).flatten().collect();
    (list, last as u64)
}

fn period(rng: &mut Rng, style: u64, base: u64) -> u64 {
    match style {
        0 => rng.range(1, 12),
        1 => rng.range(1, 100),
        2 => rng.range(1, 60_000),
        // near a power of two
        3 => ((1 << rng.below(16)) + rng.below(3)).clamp(2, 60_000) - 1,
        // near a multiple of the base
        4 => base * (1 << rng.below(8)) * rng.pick(&[1, 1, 3]) + rng.below(2),
        // near the base times a power of three, seldom near twice that
        5 => base * 3u64.pow(rng.below(7) as u32) * rng.pick(&[1, 1, 1, 1, 1, 2]) + rng.below(3),
        // of every size
        _ => {
            let bits = rng.range(1, 16);
            rng.range(1, (1 << bits) - 1).min(60_000)
        }
    }
}

/// A list with one kind of damage, which may leave it in range.
pub fn damaged_jobs(rng: &mut Rng, list: &[u8], kind: usize) -> Vec<u8> {
    let mut list = list.to_vec();
    let entries = list.len() / 4;
    match kind {
        0 => list.truncate(rng.index(list.len() + 1)),
        1 => {
            for _ in 0..rng.range(1, 300) {
                list.push(rng.byte());
            }
        }
        2 if entries > 0 => {
            let at = 4 * rng.index(entries);
            let period = rng.pick(&[0, 1, 60_000, 60_001, 65_535, 256]);
            put(&mut list, at, period);
        }
        3 if entries > 0 => {
            let at = 4 * rng.index(entries);
            let period = get(&list, at);
            let budget = rng.pick(&[0, period, period.saturating_add(1), 65_535, 256]);
            put(&mut list, at + 2, budget);
        }
        // two entries broken, so that their order tells
        4 if entries > 0 => {
            let at = 4 * rng.index(entries);
            put(&mut list, at, 60_001);
            let at = 4 * rng.index(entries);
            put(&mut list, at + 2, 0);
        }
        _ if !list.is_empty() => {
            let at = rng.index(list.len());
            list[at] = rng.byte();
        }
        _ => {}
    }
    list
}

fn get(list: &[u8], at: usize) -> u16 {
    u16::from_le_bytes([list[at], list[at + 1]])
}

fn put(list: &mut [u8], at: usize, number: u16) {
    list[at..at + 2].copy_from_slice(&number.to_le_bytes());
}
