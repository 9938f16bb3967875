//! Sheets for the tests: those of docs/SHEET.md, and planned, moved, made and damaged ones at random.

use homvaits::{move_sheet, plan, Job};

pub use crate::rng::Rng;

/// Section 10: two tasks that fill one core.
pub const FULL: [u8; 36] = [
    b'T', b'S', b'H', 1, 0, 2, 1, 0, // header
    5, 0, 1, 0, 0, 0, 1, 0, 0, 0, // task 0
    9, 0, 7, 0, 0, 0, 2, 0, 0, 0, // task 1
    9, 0, 0, 0, 2, 0, 0, 0, // core 0
];

/// Section 12: five tasks on two cores, in version 2.
pub const GROUPED: [u8; 74] = [
    b'T', b'S', b'H', 2, 0, 5, 2, 0, // header
    4, 0, 1, 0, 3, 0, 1, 0, 0, 0, // position 0
    8, 0, 2, 0, 1, 0, 2, 0, 0, 0, // position 1
    8, 0, 1, 0, 4, 0, 2, 0, 0, 0, // position 2
    5, 0, 1, 0, 2, 0, 1, 0, 0, 0, // position 3
    9, 0, 7, 0, 0, 0, 2, 0, 0, 0, // position 4
    4, 0, 3, 0, 1, 0, 0, 0, // core 0
    9, 0, 2, 0, 2, 0, 0, 0, // core 1
];

/// Section 14: the two tasks of section 10 in version 3, the second in strokes of 4 ticks.
pub const STROKED: [u8; 36] = [
    b'T', b'S', b'H', 3, 0, 2, 1, 0, // header
    5, 0, 1, 0, 0, 1, 1, 0, 0, 0, // task 0
    9, 0, 7, 0, 0, 4, 2, 0, 0, 0, // task 1
    9, 0, 0, 0, 2, 0, 0, 0, // core 0
];

/// Bytes with some of them changed.
pub fn changed(bytes: &[u8], changes: &[(usize, u8)]) -> Vec<u8> {
    let mut bytes = bytes.to_vec();
    for (at, byte) in changes {
        bytes[*at] = *byte;
    }
    bytes
}

/// Three tasks on one core: 3 1, 7 1 and 13 6, the last with this factor.
pub fn chained(factor: u8) -> Vec<u8> {
    let tasks = [[3, 1, 1], [7, 1, 2], [13, 6, factor]];
    let records =
        tasks.map(|[period, budget, factor]| [period, 0, budget, 0, 0, 0, factor, 0, 0, 0]);
    [
        [b'T', b'S', b'H', 1, 0, 3, 1, 0].as_slice(),
        records.as_flattened(),
        &[3, 0, 0, 0, 1, 0, 0, 0],
    ]
    .concat()
}

impl Rng {
    fn byte(&mut self) -> u8 {
        self.range(0, 255) as u8
    }

    pub fn jobs(&mut self) -> Vec<Job> {
        let longest = [6, 12, 300, 60_000][self.range(0, 3) as usize];
        let share = self.range(2, 20);
        (0..self.range(0, 24))
            .map(|_| {
                let period = self.range(1, longest);
                let budget = self.range(1, (period / share).max(1));
                Job {
                    period: period as u16,
                    budget: budget as u16,
                }
            })
            .collect()
    }

    /// A sheet of version 1 as no planner writes it, with large figures. Most are accepted.
    fn made(&mut self) -> Vec<u8> {
        let cores = self.range(1, 8);
        let (mut tasks, mut records) = (Vec::new(), Vec::new());
        for core in 0..cores {
            let pivot = self.range(1, 60_000);
            let divisor = self.range(1, 120_000);
            records.extend((pivot as u16).to_le_bytes());
            records.extend([0, 0]);
            records.extend((divisor as u32).to_le_bytes());
            let factor = (self.range(20, 400) * divisor / pivot + 1).min(120_000);
            self.chain(&mut tasks, core as u8, pivot, divisor, factor);
        }
        let count = (tasks.len() / 10) as u8;
        let header = [b'T', b'S', b'H', 1, 0, count, cores as u8, 0];
        [header.to_vec(), tasks, records].concat()
    }

    fn chain(&mut self, tasks: &mut Vec<u8>, core: u8, pivot: u64, divisor: u64, first: u64) {
        let mut factor = first;
        for _ in 0..self.range(1, 8) {
            let period = (pivot * factor).div_ceil(divisor).min(60_000);
            let budget = self.range(1, (period / 8).max(1));
            tasks.extend((period as u16).to_le_bytes());
            tasks.extend((budget as u16).to_le_bytes());
            tasks.extend([core, 0]);
            tasks.extend((factor as u32).to_le_bytes());
            let next = factor * self.range(1, 4);
            if next <= 120_000 && pivot * next <= 60_000 * divisor {
                factor = next;
            }
        }
    }

    /// A planned or made sheet of any version, most of them accepted.
    pub fn sheet(&mut self) -> Vec<u8> {
        let jobs = self.jobs();
        let start = self.range(0, jobs.len().saturating_sub(1) as u64);
        let planned = plan(&jobs, 8, start as usize);
        let bytes = match planned {
            Ok(sheet) if !self.once_in(3) => sheet.as_bytes().to_vec(),
            _ => self.made(),
        };
        match (self.range(0, 2), move_sheet(&bytes)) {
            (0, Ok(moved)) => moved.as_bytes().to_vec(),
            (1, _) => self.stroked(bytes),
            _ => bytes,
        }
    }

    /// A sheet of version 1 as one of version 3. Most have short strokes and are accepted.
    pub fn stroked(&mut self, mut bytes: Vec<u8>) -> Vec<u8> {
        let longest = [1, 2, 4, 255][self.range(0, 3) as usize];
        let tasks = usize::from(bytes[5]);
        bytes[3] = 3;
        for record in bytes[8..].chunks_exact_mut(10).take(tasks) {
            let budget = u16::from_le_bytes([record[2], record[3]]);
            record[5] = self.range(1, u64::from(budget).min(longest)) as u8;
        }
        bytes
    }

    /// A sheet with one change or several.
    pub fn damaged(&mut self) -> Vec<u8> {
        let mut bytes = self.sheet();
        for _ in 0..[1, 1, 1, 2, 5][self.range(0, 4) as usize] {
            self.damage(&mut bytes);
        }
        bytes
    }

    fn damage(&mut self, bytes: &mut Vec<u8>) {
        let last = bytes.len().saturating_sub(1) as u64;
        let at = self.range(0, last) as usize;
        // the header, and a field of a task record that a single change may leave in range
        let front = self.range(0, 7) as usize;
        let task = 8 + 10 * self.range(0, last / 10) as usize;
        let field = task + [0, 2, 4, 5, 6][self.range(0, 4) as usize];
        let (other, byte) = (self.range(0, last) as usize, self.byte());
        match self.range(0, 9) {
            0 => bytes.truncate(at),
            1 => bytes.extend((0..self.range(1, 40)).map(|_| byte)),
            2 => set(bytes, front, |_| byte),
            3 => set(bytes, front, |old| old.wrapping_add(1)),
            4 => set(bytes, at, |_| byte),
            5 => set(bytes, at, |old| old ^ 1 << (byte % 8)),
            6 if other < bytes.len() && at < bytes.len() => bytes.swap(at, other),
            7 => set(bytes, field, |old| old.wrapping_mul(2)),
            8 => set(bytes, field, |old| old.wrapping_sub(1)),
            _ => set(bytes, field, |old| old.wrapping_add(byte % 4)),
        }
    }

    /// Any bytes; half of them with a right mark, version and length.
    pub fn noise(&mut self) -> Vec<u8> {
        let length = self.range(0, 900);
        let mut bytes: Vec<u8> = (0..length).map(|_| self.byte()).collect();
        if self.once_in(2) {
            let (version, tasks, cores) = (self.range(1, 3), self.range(0, 70), self.range(0, 9));
            bytes.resize((8 + 10 * tasks + 8 * cores) as usize, 0);
            let header = [
                b'T',
                b'S',
                b'H',
                version as u8,
                0,
                tasks as u8,
                cores as u8,
                0,
            ];
            bytes[..8].copy_from_slice(&header);
        }
        bytes
    }
}

fn set(bytes: &mut [u8], at: usize, change: impl Fn(u8) -> u8) {
    if let Some(byte) = bytes.get_mut(at) {
        *byte = change(*byte);
    }
}
