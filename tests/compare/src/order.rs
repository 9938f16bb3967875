//! Version 2: why a sheet is out of order, and what a sheet in order is by its
//! old numbers.

use crate::session::Kind;

const REPEATED: &str = "a number repeated";
const TOO_HIGH: &str = "a number that is not below the number of tasks";
const NO_CORES: &str = "tasks but no cores";
const TOO_FEW: &str = "counts below the number of tasks";
const TOO_MANY: &str = "counts above the number of tasks";
const WRAPPED: &str = "counts that add up in eight bits only";
const LONGER_FIRST: &str = "a longer period first";
const HIGHER_FIRST: &str = "equal periods, the higher number first";

/// Each reason for 23, by itself.
pub const REASONS: [Kind; 8] = [
    (23, REPEATED),
    (23, TOO_HIGH),
    (23, NO_CORES),
    (23, TOO_FEW),
    (23, TOO_MANY),
    (23, WRAPPED),
    (23, LONGER_FIRST),
    (23, HIGHER_FIRST),
];

/// The records of a version 2 sheet of the right length.
pub struct Grouped<'a> {
    bytes: &'a [u8],
    tasks: Vec<&'a [u8]>,
    cores: Vec<&'a [u8]>,
}

impl<'a> Grouped<'a> {
    pub fn of(bytes: &'a [u8]) -> Option<Grouped<'a>> {
        if bytes.len() < 8 || !bytes.starts_with(b"TSH\x02\x00") {
            return None;
        }
        let (n, c) = (bytes[5] as usize, bytes[6] as usize);
        if n > 64 || c > 8 || bytes.len() != 8 + 10 * n + 8 * c {
            return None;
        }
        let (tasks, cores) = bytes[8..].split_at(10 * n);
        Some(Grouped {
            bytes,
            tasks: tasks.chunks(10).collect(),
            cores: cores.chunks(8).collect(),
        })
    }

    /// The old number of the task at a position.
    pub fn number(&self, position: usize) -> usize {
        self.tasks[position][4] as usize
    }

    fn period(&self, position: usize) -> u16 {
        u16::from_le_bytes([self.tasks[position][0], self.tasks[position][1]])
    }

    /// The positions of each core, by counts that add up.
    fn groups(&self) -> Vec<std::ops::Range<usize>> {
        let mut end = 0;
        let group = |core: &&[u8]| {
            let begin = end;
            end += core[2] as usize;
            begin..end
        };
        self.cores.iter().map(group).collect()
    }

    /// Why the sheet is out of order, all that applies.
    pub fn reasons(&self) -> Vec<&'static str> {
        let n = self.tasks.len();
        let mut reasons = Vec::new();
        let mut add = |applies: bool, reason: &'static str| {
            if applies {
                reasons.push(reason);
            }
        };
        let mut numbers: Vec<usize> = (0..n).map(|i| self.number(i)).collect();
        numbers.sort_unstable();
        add(numbers.windows(2).any(|pair| pair[0] == pair[1]), REPEATED);
        add(numbers.last().is_some_and(|&last| last >= n), TOO_HIGH);
        let sum: usize = self.cores.iter().map(|core| core[2] as usize).sum();
        if sum != n {
            let counts = match (self.cores.len(), sum) {
                (0, _) => NO_CORES,
                _ if sum < n => TOO_FEW,
                _ if sum % 256 == n => WRAPPED,
                _ => TOO_MANY,
            };
            add(true, counts);
            return reasons;
        }
        let pairs = self.groups().into_iter().flat_map(|group| {
            let seconds = group.clone().skip(1);
            group.zip(seconds)
        });
        for (a, b) in pairs {
            let (p, q) = (self.period(a), self.period(b));
            add(p > q, LONGER_FIRST);
            add(p == q && self.number(a) >= self.number(b), HIGHER_FIRST);
        }
        reasons.dedup();
        reasons
    }

    /// The version 1 sheet with the tasks, cores and spare bytes of a sheet that
    /// is in order.
    pub fn by_number(&self) -> Vec<u8> {
        let mut bytes = self.bytes.to_vec();
        bytes[3] = 1;
        for (core, group) in self.groups().into_iter().enumerate() {
            for position in group {
                let at = 8 + 10 * self.number(position);
                bytes[at..at + 10].copy_from_slice(self.tasks[position]);
                bytes[at + 4] = core as u8;
            }
            bytes[8 + 10 * self.tasks.len() + 8 * core + 2] = 0;
        }
        bytes
    }
}
