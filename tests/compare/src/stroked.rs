//! Version 3: what a sheet is without its strokes.

use crate::session::Kind;

const ZERO: &str = "a stroke length of 0";
const ABOVE: &str = "a stroke length above the budget";

/// Each reason for 25.
pub const REASONS: [Kind; 2] = [(25, ZERO), (25, ABOVE)];

/// The task records of a version 3 sheet of the right length.
pub struct Stroked<'a> {
    bytes: &'a [u8],
    tasks: Vec<&'a [u8]>,
}

impl<'a> Stroked<'a> {
    pub fn of(bytes: &'a [u8]) -> Option<Stroked<'a>> {
        if bytes.len() < 8 || !bytes.starts_with(b"TSH\x03\x00") {
            return None;
        }
        let (n, c) = (bytes[5] as usize, bytes[6] as usize);
        if n > 64 || c > 8 || bytes.len() != 8 + 10 * n + 8 * c {
            return None;
        }
        let tasks = bytes[8..8 + 10 * n].chunks(10).collect();
        Some(Stroked { bytes, tasks })
    }

    /// The stroke length of a task.
    pub fn length(&self, task: usize) -> u8 {
        self.tasks[task][5]
    }

    fn reason(&self, task: usize) -> Option<&'static str> {
        let record = self.tasks[task];
        let budget = u16::from_le_bytes([record[2], record[3]]);
        match record[5] {
            0 => Some(ZERO),
            length if length as u16 > budget => Some(ABOVE),
            _ => None,
        }
    }

    /// The first task whose stroke length is out of range, and why.
    pub fn out_of_range(&self) -> Option<(usize, &'static str)> {
        (0..self.tasks.len()).find_map(|task| Some((task, self.reason(task)?)))
    }

    /// Whether a task of a lower number than this one names a core that is not
    /// there.
    pub fn misplaced_before(&self, task: usize) -> bool {
        let cores = self.bytes[6];
        self.tasks[..task].iter().any(|record| record[4] >= cores)
    }

    pub fn only_short(&self) -> bool {
        self.tasks.iter().all(|record| record[5] == 1)
    }

    /// The version 1 sheet with the tasks, cores and spare bytes of this one.
    pub fn by_version_1(&self) -> Vec<u8> {
        let mut bytes = self.bytes.to_vec();
        bytes[3] = 1;
        for task in 0..self.tasks.len() {
            bytes[8 + 10 * task + 5] = 0;
        }
        bytes
    }
}
