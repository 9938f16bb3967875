//! Sheets to take cases from, and damage to their bytes.

use reference::{CoreRecord, Sheet, TaskRecord};

/// The bytes of a sheet. The setters name a record by its place in the sheet:
/// in versions 1 and 3 the task's number, in version 2 its position.
#[derive(Clone)]
pub struct Bytes(pub Vec<u8>);

impl Bytes {
    pub fn set(mut self, offset: usize, bytes: &[u8]) -> Bytes {
        self.0[offset..offset + bytes.len()].copy_from_slice(bytes);
        self
    }

    /// The first `length` bytes.
    pub fn cut(mut self, length: usize) -> Bytes {
        self.0.truncate(length);
        self
    }

    /// The sheet with more bytes behind it.
    pub fn and(mut self, bytes: &[u8]) -> Bytes {
        self.0.extend(bytes);
        self
    }

    pub fn version(self, version: u16) -> Bytes {
        self.set(3, &version.to_le_bytes())
    }

    pub fn counts(self, tasks: u8, cores: u8) -> Bytes {
        self.set(5, &[tasks, cores])
    }

    pub fn period(self, task: usize, period: u16) -> Bytes {
        self.set(8 + 10 * task, &period.to_le_bytes())
    }

    pub fn budget(self, task: usize, budget: u16) -> Bytes {
        self.set(10 + 10 * task, &budget.to_le_bytes())
    }

    /// The core, in version 2 the old number.
    pub fn core(self, task: usize, byte: u8) -> Bytes {
        self.set(12 + 10 * task, &[byte])
    }

    /// The stroke length of version 3, else a spare byte.
    pub fn stroke(self, task: usize, byte: u8) -> Bytes {
        self.set(13 + 10 * task, &[byte])
    }

    pub fn factor(self, task: usize, factor: u32) -> Bytes {
        self.set(14 + 10 * task, &factor.to_le_bytes())
    }

    pub fn pivot(self, core: usize, pivot: u16) -> Bytes {
        let at = self.core_record(core);
        self.set(at, &pivot.to_le_bytes())
    }

    /// Bytes 2 and 3 of a core record: spare, but the first is the task count
    /// in version 2.
    pub fn spare(self, core: usize, bytes: [u8; 2]) -> Bytes {
        let at = self.core_record(core) + 2;
        self.set(at, &bytes)
    }

    pub fn count(self, core: usize, count: u8) -> Bytes {
        self.spare(core, [count, 0])
    }

    pub fn divisor(self, core: usize, divisor: u32) -> Bytes {
        let at = self.core_record(core) + 4;
        self.set(at, &divisor.to_le_bytes())
    }

    fn core_record(&self, core: usize) -> usize {
        8 + 10 * self.0[5] as usize + 8 * core
    }
}

/// The bytes of tasks (period, budget, core, stroke length, factor) by number and
/// cores (pivot, divisor), in this version. Stroke lengths stand in version 3
/// alone.
pub fn sheet(version: u8, tasks: &[(u16, u16, u8, u8, u32)], cores: &[(u16, u32)]) -> Bytes {
    let task = |&(period, budget, core, stroke, factor): &(u16, u16, u8, u8, u32)| TaskRecord {
        period: period as u64,
        budget: budget as u64,
        core: core as usize,
        stroke: stroke as u64,
        factor: factor as u64,
    };
    let core = |&(pivot, divisor): &(u16, u32)| CoreRecord {
        pivot: pivot as u64,
        divisor: divisor as u64,
    };
    let sheet = Sheet {
        tasks: tasks.iter().map(task).collect(),
        cores: cores.iter().map(core).collect(),
    };
    Bytes(match version {
        1 => sheet.write(),
        2 => sheet.write_grouped(),
        _ => sheet.write_strokes(),
    })
}

/// The header alone.
pub fn empty(version: u8) -> Bytes {
    sheet(version, &[], &[])
}

/// One task on one core.
pub fn one(
    version: u8,
    (period, budget): (u16, u16),
    factor: u32,
    (pivot, divisor): (u16, u32),
) -> Bytes {
    sheet(
        version,
        &[(period, budget, 0, 1, factor)],
        &[(pivot, divisor)],
    )
}

/// The two tasks of SHEET.md, sections 10 and 14. The core is full, and task 0
/// has room for strokes of 4 ticks.
pub fn pair(version: u8) -> Bytes {
    sheet(version, &[(5, 1, 0, 1, 1), (9, 7, 0, 4, 2)], &[(9, 2)])
}

/// Three tasks that fill a core, with room above the longest stroke for no
/// longer one.
pub fn three(version: u8) -> Bytes {
    let tasks = [(3, 1, 0, 1, 1), (7, 1, 0, 1, 2), (13, 6, 0, 3, 4)];
    sheet(version, &tasks, &[(3, 1)])
}

/// The five tasks of SHEET.md, section 12, on two cores. Version 2 has them in
/// the order 3, 1, 4 and 2, 0.
pub fn five(version: u8) -> Bytes {
    let tasks = [
        (9, 7, 1, 4, 2),
        (8, 2, 0, 2, 2),
        (5, 1, 1, 1, 1),
        (4, 1, 0, 1, 1),
        (8, 1, 0, 1, 2),
    ];
    sheet(version, &tasks, &[(4, 1), (9, 2)])
}

/// Three cores, each full with one task of 4 ticks every 4.
pub fn three_cores(version: u8) -> Bytes {
    let tasks = [(4, 4, 0, 1, 1), (4, 4, 1, 1, 1), (4, 4, 2, 1, 1)];
    sheet(version, &tasks, &[(4, 1); 3])
}

/// Two cores of three tasks each, in their order of priority in every version,
/// with the factors 2, 4, 8.
pub fn chains(version: u8) -> Bytes {
    let core = |k| [(10, 1, k, 1, 2), (20, 1, k, 1, 4), (40, 2, k, 2, 8)];
    sheet(version, &[core(0), core(1)].concat(), &[(5, 1); 2])
}

/// 64 tasks, task i on core i mod 8, each core full with eight tasks.
pub fn sixty_four(version: u8) -> Bytes {
    let tasks: Vec<_> = (0..64u16)
        .map(|i| (8 + i, 1, (i % 8) as u8, 1, 1))
        .collect();
    sheet(version, &tasks, &[(8, 1); 8])
}
