//! The sheet's layout in its three versions, and its figures.

use crate::Fraction;

pub const LONGEST_SHEET: usize = 712;

const HEADER: usize = 8;
const TASK_RECORD: usize = 10;
const CORE_RECORD: usize = 8;

#[derive(Clone, Copy, Debug, PartialEq, Eq)]
pub struct TaskRecord {
    pub period: u64,
    pub budget: u64,
    pub core: usize,
    /// The stroke length q, which is 1 in versions 1 and 2.
    pub stroke: u64,
    pub factor: u64,
}

#[derive(Clone, Copy, Debug, PartialEq, Eq)]
pub struct CoreRecord {
    pub pivot: u64,
    pub divisor: u64,
}

/// The figures of a sheet, its tasks by number.
#[derive(Clone, Debug, PartialEq, Eq)]
pub struct Sheet {
    pub tasks: Vec<TaskRecord>,
    pub cores: Vec<CoreRecord>,
}

/// What version 2 writes in the places of the cores and of the first spare
/// bytes of the core records.
#[derive(Clone, Debug, PartialEq, Eq)]
pub struct Grouping {
    /// The old number of the task at each position.
    pub numbers: Vec<usize>,
    /// How many tasks each core has.
    pub counts: Vec<usize>,
}

/// An unsigned number, low byte first.
pub fn number(bytes: &[u8]) -> u64 {
    bytes.iter().rev().fold(0, |n, &byte| n * 256 + byte as u64)
}

/// The whole length of a sheet with these counts.
pub fn length(tasks: usize, cores: usize) -> usize {
    HEADER + TASK_RECORD * tasks + CORE_RECORD * cores
}

/// The version of bytes that have a header.
pub fn version(bytes: &[u8]) -> u64 {
    number(&bytes[3..5])
}

/// Whether the byte at this offset is spare in a sheet of this version with so
/// many tasks.
pub fn is_spare(version: u64, offset: usize, tasks: usize) -> bool {
    let cores_at = length(tasks, 0);
    if offset < HEADER {
        offset == 7
    } else if offset < cores_at {
        // the stroke length of a version 3 task
        (offset - HEADER) % TASK_RECORD == 5 && version != 3
    } else {
        match (offset - cores_at) % CORE_RECORD {
            // the count of a version 2 core
            2 => version != 2,
            at => at == 3,
        }
    }
}

/// The task records and the core records of bytes that have the length of these
/// counts.
fn parts(bytes: &[u8], tasks: usize, cores: usize) -> (&[u8], &[u8]) {
    assert_eq!(bytes.len(), length(tasks, cores));
    bytes[HEADER..].split_at(TASK_RECORD * tasks)
}

impl Grouping {
    /// The grouping of bytes that have the length of these counts.
    pub fn read(bytes: &[u8], tasks: usize, cores: usize) -> Grouping {
        let (task_part, core_part) = parts(bytes, tasks, cores);
        Grouping {
            numbers: task_part
                .chunks(TASK_RECORD)
                .map(|record| record[4] as usize)
                .collect(),
            counts: core_part
                .chunks(CORE_RECORD)
                .map(|record| record[2] as usize)
                .collect(),
        }
    }

    /// The grouping of a sheet's tasks: core by core, each core by priority.
    pub fn of(sheet: &Sheet) -> Grouping {
        let cores: Vec<Vec<usize>> = (0..sheet.cores.len())
            .map(|core| sheet.by_priority(core))
            .collect();
        Grouping {
            counts: cores.iter().map(Vec::len).collect(),
            numbers: cores.concat(),
        }
    }

    /// The core of each position: the first count has the first positions.
    pub fn cores(&self) -> Vec<usize> {
        let positions = |(core, &count): (usize, &usize)| vec![core; count];
        self.counts.iter().enumerate().flat_map(positions).collect()
    }
}

impl Sheet {
    /// The figures of bytes that have the length of these counts, as versions 1
    /// and 3 read them: byte 4 is the core. Byte 5 is the stroke length in
    /// version 3.
    pub fn read(bytes: &[u8], tasks: usize, cores: usize) -> Sheet {
        let (task_part, core_part) = parts(bytes, tasks, cores);
        let stroke = |record: &[u8]| match version(bytes) {
            3 => record[5] as u64,
            _ => 1,
        };
        Sheet {
            tasks: task_part
                .chunks(TASK_RECORD)
                .map(|record| TaskRecord {
                    period: number(&record[0..2]),
                    budget: number(&record[2..4]),
                    core: record[4] as usize,
                    stroke: stroke(record),
                    factor: number(&record[6..10]),
                })
                .collect(),
            cores: core_part
                .chunks(CORE_RECORD)
                .map(|record| CoreRecord {
                    pivot: number(&record[0..2]),
                    divisor: number(&record[4..8]),
                })
                .collect(),
        }
    }

    /// The bytes of version 1, which has no stroke lengths, for figures that fit
    /// their fields.
    pub fn write(&self) -> Vec<u8> {
        self.write_with(1, |_| 0)
    }

    /// The bytes of version 3, for figures that fit their fields.
    pub fn write_strokes(&self) -> Vec<u8> {
        self.write_with(3, |task| task.stroke)
    }

    /// The layout of versions 1 and 3 with this byte 5 of the tasks.
    fn write_with(&self, version: u8, byte: impl Fn(&TaskRecord) -> u64) -> Vec<u8> {
        let mut bytes = self.header(version);
        for task in &self.tasks {
            bytes.extend(task.write(task.core, byte(task)));
        }
        for core in &self.cores {
            bytes.extend(core.write(0));
        }
        bytes
    }

    /// The bytes of version 2, which has no stroke lengths, for figures that fit
    /// their fields and cores that are there.
    pub fn write_grouped(&self) -> Vec<u8> {
        let Grouping { numbers, counts } = Grouping::of(self);
        let mut bytes = self.header(2);
        for number in numbers {
            bytes.extend(self.tasks[number].write(number, 0));
        }
        for (core, count) in self.cores.iter().zip(counts) {
            bytes.extend(core.write(count));
        }
        bytes
    }

    fn header(&self, version: u8) -> Vec<u8> {
        let (tasks, cores) = (self.tasks.len() as u8, self.cores.len() as u8);
        vec![b'T', b'S', b'H', version, 0, tasks, cores, 0]
    }

    /// The numbers of a core's tasks in priority order.
    pub fn by_priority(&self, core: usize) -> Vec<usize> {
        let mut numbers: Vec<usize> = (0..self.tasks.len())
            .filter(|&i| self.tasks[i].core == core)
            .collect();
        numbers.sort_by_key(|&i| (self.tasks[i].period, i));
        numbers
    }

    /// The accelerated period Q * M / D of a task.
    pub fn accelerated(&self, task: usize) -> Fraction {
        let task = self.tasks[task];
        let core = self.cores[task.core];
        Fraction::new(
            core.pivot as u128 * task.factor as u128,
            core.divisor as u128,
        )
    }

    /// w of a task.
    pub fn within(&self, task: usize) -> u64 {
        self.accelerated(task).floor() as u64
    }

    /// B of a task: the largest q - 1 among the tasks below it in priority on
    /// its core, or 0 if there are none.
    pub fn blocking(&self, task: usize) -> u64 {
        let order = self.by_priority(self.tasks[task].core);
        let place = order.iter().position(|&other| other == task);
        self.longest_of(&order[place.expect("the task is on its core") + 1..])
    }

    /// The largest q - 1 among these tasks, or 0 if there are none.
    fn longest_of(&self, tasks: &[usize]) -> u64 {
        let longest = tasks.iter().map(|&task| self.tasks[task].stroke - 1).max();
        longest.unwrap_or(0)
    }

    /// Whether a core has room for each of its tasks, if their factors form a
    /// chain: the sum of e * D * (M of the task / M of the other) over it and
    /// those above it, plus B * D, is at most Q * M.
    pub fn has_room(&self, core: usize) -> bool {
        let order = self.by_priority(core);
        let CoreRecord { pivot, divisor } = self.cores[core];
        let has_room = |place: usize| {
            let factor = self.tasks[order[place]].factor;
            let demand = |&other: &usize| {
                let other = self.tasks[other];
                assert_eq!(factor % other.factor, 0);
                other.budget as u128 * divisor as u128 * (factor / other.factor) as u128
            };
            let demands: u128 = order[..=place].iter().map(demand).sum();
            let blocking = self.longest_of(&order[place + 1..]);
            demands + blocking as u128 * divisor as u128 <= pivot as u128 * factor as u128
        };
        (0..order.len()).all(has_room)
    }

    /// The load of a core whose factors form a chain.
    pub fn load(&self, core: usize) -> Fraction {
        let tasks: Vec<(u64, u64)> = self
            .by_priority(core)
            .iter()
            .map(|&i| (self.tasks[i].budget, self.tasks[i].factor))
            .collect();
        load(&tasks, self.cores[core])
    }
}

impl TaskRecord {
    /// The record with this byte 4, the core or the old number, and this byte 5,
    /// 0 or the stroke length.
    fn write(&self, place: usize, stroke: u64) -> Vec<u8> {
        let mut record = (self.period as u16).to_le_bytes().to_vec();
        record.extend((self.budget as u16).to_le_bytes());
        record.extend([place as u8, stroke as u8]);
        record.extend((self.factor as u32).to_le_bytes());
        record
    }
}

impl CoreRecord {
    /// The record with this byte 2: 0 or the count.
    fn write(&self, byte: usize) -> Vec<u8> {
        let mut record = (self.pivot as u16).to_le_bytes().to_vec();
        record.extend([byte as u8, 0]);
        record.extend((self.divisor as u32).to_le_bytes());
        record
    }
}

/// The load of tasks (e, M) in priority order whose factors form a chain: the
/// sum of e * D * (L / M) over Q * L.
pub fn load(tasks: &[(u64, u64)], core: CoreRecord) -> Fraction {
    let last = tasks.last().expect("no core is bare").1 as u128;
    let demand: u128 = tasks
        .iter()
        .map(|&(budget, factor)| {
            Fraction::whole(last)
                .ratio(Fraction::whole(factor as u128))
                .exact()
                * budget as u128
                * core.divisor as u128
        })
        .sum();
    Fraction::new(demand, core.pivot as u128 * last)
}
