//! Random sheets and their damages.

use crate::{job_list, Rng};
use reference::{plan, CoreRecord, Sheet, TaskRecord, LONGEST_SHEET};

const LONGEST_PERIOD: u64 = 60_000;
const LARGEST_FACTOR: u64 = 120_000;

/// Random bytes; every second time they begin like a sheet.
pub fn random_bytes(rng: &mut Rng, length: usize) -> Vec<u8> {
    let mut bytes: Vec<u8> = (0..length).map(|_| rng.byte()).collect();
    if length >= 8 && rng.once_in(2) {
        bytes[..5].copy_from_slice(b"TSH\x01\x00");
        bytes[5] &= 127;
        bytes[6] &= 15;
    }
    bytes
}

/// Random bytes that begin like a sheet of this version; every second time with
/// counts that give their length, where there are such, and zeros as spare
/// bytes.
pub(crate) fn random_of_version(rng: &mut Rng, length: usize, version: u8) -> Vec<u8> {
    let mut bytes: Vec<u8> = (0..length).map(|_| rng.byte()).collect();
    if length < 8 {
        return bytes;
    }
    bytes[..5].copy_from_slice(&[b'T', b'S', b'H', version, 0]);
    bytes[5] &= 127;
    bytes[6] &= 15;
    let tasks_with = |cores: usize| {
        let rest = (length - 8).checked_sub(8 * cores)?;
        rest.is_multiple_of(10).then_some((rest / 10, cores))
    };
    let counts: Vec<(usize, usize)> = (0..=8).filter_map(tasks_with).collect();
    if !counts.is_empty() && rng.once_in(2) {
        let (tasks, cores) = rng.pick(&counts);
        (bytes[5], bytes[6]) = (tasks as u8, cores as u8);
        for at in (Places { tasks, cores }).spares(version) {
            bytes[at] = 0;
        }
    }
    bytes
}

/// A sheet that the reference planner makes of random jobs.
pub fn planned_sheet(rng: &mut Rng) -> Vec<u8> {
    let mut most = 64;
    loop {
        let count = rng.range(0, most) as usize;
        let list = job_list(rng, count);
        let start = rng.below(count.max(1) as u64);
        let mut out = vec![0; LONGEST_SHEET];
        let answer = plan(&list, 8, start, &mut out);
        if answer.refusal == 0 {
            out.truncate(answer.length as usize);
            return out;
        }
        most = most / 2 + 1;
    }
}

/// An accepted sheet with figures of every size, the load of its cores often
/// one or just below.
pub fn handmade_sheet(rng: &mut Rng) -> Vec<u8> {
    let core_count = if rng.once_in(2) { 1 } else { rng.range(1, 8) };
    let (mut tasks, mut cores) = (Vec::new(), Vec::new());
    for core in 0..core_count as usize {
        let count = rng.range(1, 64 / core_count);
        let (record, mut set) = handmade_core(rng, count);
        set.iter_mut().for_each(|task| task.core = core);
        tasks.extend(set);
        cores.push(record);
    }
    rng.shuffle(&mut tasks);
    order_equal_periods(&mut tasks);
    Sheet { tasks, cores }.write()
}

/// An accepted sheet of 64 tasks on 8 cores.
pub fn longest_sheet(rng: &mut Rng) -> Vec<u8> {
    let longest = rng.pick(&[70, 300, LONGEST_PERIOD]);
    let mut tasks: Vec<TaskRecord> = (0..64)
        .map(|i| TaskRecord {
            period: rng.range(64, longest),
            budget: 1,
            core: i % 8,
            stroke: 1,
            factor: 1,
        })
        .collect();
    rng.shuffle(&mut tasks);
    let core = CoreRecord {
        pivot: 64,
        divisor: 1,
    };
    Sheet {
        tasks,
        cores: vec![core; 8],
    }
    .write()
}

fn handmade_core(rng: &mut Rng, count: u64) -> (CoreRecord, Vec<TaskRecord>) {
    let pivot = match rng.below(4) {
        0 => rng.range(1, 12),
        1 => rng.range(1, 100),
        2 => rng.range(1, LONGEST_PERIOD),
        _ => LONGEST_PERIOD,
    };
    let divisor = match rng.below(5) {
        0 => 1,
        1 => rng.range(1, 10),
        2 => 1 << rng.below(17),
        3 => rng.range(1, LARGEST_FACTOR),
        _ => LARGEST_FACTOR,
    };

    // a chain of factors, the first accelerated period at least 1
    let least = divisor.div_ceil(pivot);
    let most = (LONGEST_PERIOD * divisor / pivot).min(LARGEST_FACTOR);
    let mut factor = match rng.below(4) {
        0 => least,
        1 => least + rng.below(3),
        2 => rng.range(least, most),
        _ => most,
    };
    factor = factor.min(most);
    let mut period = 1;
    let mut tasks = Vec::new();
    for _ in 0..count {
        let accelerated = (pivot * factor).div_ceil(divisor);
        let slack = match rng.below(3) {
            0 => 0,
            1 => 1,
            _ => rng.below(accelerated),
        };
        period = period.max(accelerated + slack).min(LONGEST_PERIOD);
        tasks.push(TaskRecord {
            period,
            budget: 1,
            core: 0,
            stroke: 1,
            factor,
        });
        let step = match rng.below(8) {
            0..4 => 1,
            4..6 => 2,
            6 => rng.range(2, 7),
            _ => rng.range(1, LARGEST_FACTOR / factor),
        };
        if factor * step <= most {
            factor *= step;
        }
    }
    let record = CoreRecord { pivot, divisor };
    fill(rng, record, &mut tasks);
    (record, tasks)
}

/// Leave as many tasks as fit with budget 1, then share out the room.
fn fill(rng: &mut Rng, core: CoreRecord, tasks: &mut Vec<TaskRecord>) {
    let room = |tasks: &[TaskRecord]| {
        let last = tasks[tasks.len() - 1].factor;
        let used: u64 = tasks.iter().map(|task| last / task.factor).sum();
        (core.pivot * last).checked_sub(core.divisor * used)
    };
    while room(tasks).is_none() {
        tasks.remove(rng.index(tasks.len()));
    }
    let mut left = room(tasks).expect("the tasks fit");
    let last = tasks[tasks.len() - 1].factor;
    let mut order: Vec<usize> = (0..tasks.len()).collect();
    rng.shuffle(&mut order);
    let greedy = rng.once_in(2);
    for (step, &i) in order.iter().enumerate() {
        let task = &mut tasks[i];
        let cost = core.divisor * (last / task.factor);
        let most = (left / cost).min(task.period - 1);
        let more = if greedy && step + 2 >= order.len() {
            most
        } else {
            rng.range(0, most)
        };
        task.budget += more;
        left -= more * cost;
    }
}

/// Among equal periods on one core the lower number has the lower factor.
pub(crate) fn order_equal_periods(tasks: &mut [TaskRecord]) {
    for later in 0..tasks.len() {
        for earlier in 0..later {
            let (a, b) = (tasks[earlier], tasks[later]);
            if (a.core, a.period) == (b.core, b.period) && a.factor > b.factor {
                tasks.swap(earlier, later);
            }
        }
    }
}

/// A sheet of the right length whose fields are in range or nearly so.
pub fn likely_sheet(rng: &mut Rng) -> Vec<u8> {
    let most_cores = rng.pick(&[1, 8]);
    let cores = rng.range(0, most_cores);
    let most_tasks = rng.pick(&[4, 64]);
    let tasks = rng.range(0, most_tasks);
    let longest = rng.pick(&[3, 20, LONGEST_PERIOD]);
    let largest = rng.pick(&[1, 3, 20, LARGEST_FACTOR]);
    let task = |rng: &mut Rng| {
        let period = rng.range(1, longest);
        TaskRecord {
            period,
            budget: rng.range(1, period),
            core: rng.below(cores.max(1)) as usize,
            stroke: 1,
            factor: rng.range(1, largest),
        }
    };
    let core = |rng: &mut Rng| CoreRecord {
        pivot: rng.range(1, longest),
        divisor: rng.range(1, largest),
    };
    Sheet {
        tasks: (0..tasks).map(|_| task(rng)).collect(),
        cores: (0..cores).map(|_| core(rng)).collect(),
    }
    .write()
}

pub const SHEET_DAMAGES: usize = 25;

/// A sheet with one kind of damage, which may leave it in order. A sheet
/// without the field in question gets a random byte.
pub fn damaged_sheet(rng: &mut Rng, sheet: &[u8], kind: usize) -> Vec<u8> {
    let mut bytes = sheet.to_vec();
    if !damage(rng, &mut bytes, kind) && !bytes.is_empty() {
        let at = rng.index(bytes.len());
        bytes[at] = rng.byte();
    }
    bytes
}

/// Where the records of a sheet of the right length stand.
pub(crate) struct Places {
    pub(crate) tasks: usize,
    pub(crate) cores: usize,
}

impl Places {
    pub(crate) fn of(bytes: &[u8]) -> Option<Places> {
        let (tasks, cores) = (*bytes.get(5)? as usize, *bytes.get(6)? as usize);
        (bytes.len() == 8 + 10 * tasks + 8 * cores).then_some(Places { tasks, cores })
    }

    pub(crate) fn task(&self, number: usize) -> usize {
        8 + 10 * number
    }

    pub(crate) fn core(&self, number: usize) -> usize {
        8 + 10 * self.tasks + 8 * number
    }

    /// The offsets of the spare bytes in this version.
    pub(crate) fn spares(&self, version: u8) -> Vec<usize> {
        let mut spares = vec![7];
        if version != 3 {
            spares.extend((0..self.tasks).map(|number| self.task(number) + 5));
        }
        let in_core: &[usize] = if version == 2 { &[3] } else { &[2, 3] };
        for number in 0..self.cores {
            spares.extend(in_core.iter().map(|at| self.core(number) + at));
        }
        spares
    }
}

/// Do the damage; false where the sheet has no such field.
fn damage(rng: &mut Rng, bytes: &mut Vec<u8>, kind: usize) -> bool {
    let Some(places) = Places::of(bytes) else {
        return false;
    };
    let (n, c) = (places.tasks, places.cores);
    if (kind >= 9 && n == 0) || (kind >= 11 && c == 0) {
        return false;
    }
    // a task, its core, and their figures
    let task = places.task(rng.index(n.max(1)));
    let core = if kind >= 11 {
        places.core((bytes[task + 4] as usize).min(c - 1))
    } else {
        0
    };
    let other = places.task(rng.index(n.max(1)));
    match kind {
        // header
        0 => bytes.truncate(rng.index(8)),
        1 => bytes[rng.index(3)] ^= 1 << rng.below(8),
        2 => bytes[3 + rng.index(2)] = rng.pick(&[0, 1, 2, 3, 4, 255]),
        3 => bytes[5] = rng.pick(&[64, 65, 128, 255]),
        4 => bytes[6] = rng.pick(&[8, 9, 128, 255]),
        5 => {
            let at = 5 + rng.index(2);
            bytes[at] = bytes[at].wrapping_add(rng.pick(&[1, 255]));
        }
        6 => bytes.truncate(rng.range(8, bytes.len() as u64) as usize),
        7 => bytes.extend((0..rng.pick(&[1, 8, 10, 100])).map(|_| 0)),
        8 => {
            for _ in 0..rng.range(1, 2) {
                let at = rng.pick(&places.spares(1));
                bytes[at] = rng.pick(&[1, 128, 255]);
            }
        }
        // tasks
        9 => put16(bytes, task, rng.pick(&[0, 1, 60_000, 60_001, 65_535, 256])),
        10 => {
            let period = get16(bytes, task);
            put16(
                bytes,
                task + 2,
                rng.pick(&[0, period, period + 1, 65_535, 256]),
            );
        }
        11 => bytes[task + 4] = rng.pick(&[c as u8, c as u8 + 1, 255, 0, c as u8 - 1]),
        12 => {
            let from = bytes[task + 4];
            for number in 0..n {
                let core = &mut bytes[places.task(number) + 4];
                if *core == from {
                    *core = rng.index(c) as u8;
                }
            }
        }
        13 => {
            let factor = rng.pick(&[0, 1, 119_999, 120_000, 120_001, 65_536, 1 << 31]);
            put32(bytes, task + 6, factor);
        }
        14 => {
            let factor = get32(bytes, task + 6);
            put32(bytes, task + 6, near(rng, factor));
        }
        // the shortest periods that acceleration leaves, and one less
        15 => {
            let accelerated = get16(bytes, core) * get32(bytes, task + 6);
            let shortest = accelerated.div_ceil(get32(bytes, core + 4).max(1));
            put16(bytes, task, shortest.saturating_sub(rng.below(2)));
        }
        16 => {
            let budget = get16(bytes, task + 2);
            put16(bytes, task + 2, near(rng, budget));
        }
        17 => {
            for number in 0..n {
                let at = places.task(number);
                let period = get16(bytes, at);
                put16(bytes, at + 2, period);
            }
        }
        18 => {
            let period = get16(bytes, other);
            let budget = get16(bytes, task + 2).min(period);
            put16(bytes, task, period);
            put16(bytes, task + 2, budget);
        }
        19 => {
            for i in 0..10 {
                bytes.swap(task + i, other + i);
            }
        }
        // cores
        20 => put16(bytes, core, rng.pick(&[0, 1, 60_000, 60_001, 65_535, 256])),
        21 => {
            let divisor = rng.pick(&[0, 1, 119_999, 120_000, 120_001, 65_536, 1 << 31]);
            put32(bytes, core + 4, divisor);
        }
        22 => {
            let (pivot, divisor) = (get16(bytes, core), get32(bytes, core + 4));
            if rng.once_in(2) {
                put16(bytes, core, near(rng, pivot));
            } else {
                put32(bytes, core + 4, near(rng, divisor));
            }
        }
        // several at once: of any field, or of the records only
        _ => {
            let first_kind = if kind == 23 { 0 } else { 9 };
            for _ in 0..rng.range(2, 4) {
                let kind = rng.range(first_kind, 22) as usize;
                damage(rng, bytes, kind);
            }
        }
    }
    true
}

/// A number near this one or in proportion to it.
fn near(rng: &mut Rng, number: u64) -> u64 {
    let any = rng.range(0, 2 * number);
    rng.pick(&[
        number + 1,
        number.saturating_sub(1),
        2 * number,
        number / 2,
        3 * number,
        any,
    ])
}

pub(crate) fn get16(bytes: &[u8], at: usize) -> u64 {
    u16::from_le_bytes([bytes[at], bytes[at + 1]]) as u64
}

pub(crate) fn get32(bytes: &[u8], at: usize) -> u64 {
    get16(bytes, at) + 65_536 * get16(bytes, at + 2)
}

pub(crate) fn put16(bytes: &mut [u8], at: usize, number: u64) {
    bytes[at..at + 2].copy_from_slice(&(number as u16).to_le_bytes());
}

pub(crate) fn put32(bytes: &mut [u8], at: usize, number: u64) {
    bytes[at..at + 4].copy_from_slice(&(number as u32).to_le_bytes());
}
