//! Random job lists and sheets, from a seed.

use homvaits::{plan, Job, Sheet};

/// Splitmix64.
pub struct Rng(pub u64);

impl Rng {
    /// A number from `low` to `high`, both included.
    pub fn range(&mut self, low: u64, high: u64) -> u64 {
        self.0 = self.0.wrapping_add(0x9E37_79B9_7F4A_7C15);
        let mut z = self.0;
        z = (z ^ (z >> 30)).wrapping_mul(0xBF58_476D_1CE4_E5B9);
        z = (z ^ (z >> 27)).wrapping_mul(0x94D0_49BB_1331_11EB);
        low + (z ^ (z >> 31)) % (high - low + 1)
    }

    /// Jobs of short, middle or long periods that need a few cores together.
    pub fn jobs(&mut self) -> Vec<Job> {
        let longest = [12, 300, 60_000][self.range(0, 2) as usize];
        let share = self.range(2, 20);
        (0..self.range(0, 64))
            .map(|_| {
                let period = self.range(1, longest);
                let budget = self.range(1, (period / share).max(1));
                Job {
                    period: period as u16,
                    budget: budget as u16,
                }
            })
            .collect()
    }

    /// The bytes of a sheet that no planner wrote: large factors and divisors, chains of any multiples. Most are accepted.
    pub fn made(&mut self) -> Vec<u8> {
        let cores = self.range(1, 8);
        let (mut task_records, mut core_records) = (Vec::new(), Vec::new());
        let mut tasks = 0;
        for core in 0..cores {
            let pivot = self.range(1, 60_000);
            let divisor = self.range(1, 120_000);
            core_records.extend((pivot as u16).to_le_bytes());
            core_records.extend([0, 0]);
            core_records.extend((divisor as u32).to_le_bytes());
            let mut factor = (self.range(20, 400) * divisor / pivot + 1).min(120_000);
            for _ in 0..self.range(1, 8) {
                let period = (pivot * factor).div_ceil(divisor).min(60_000);
                task_records.extend((period as u16).to_le_bytes());
                let budget = self.range(1, (period / 8).max(1));
                task_records.extend((budget as u16).to_le_bytes());
                task_records.extend([core as u8, 0]);
                task_records.extend((factor as u32).to_le_bytes());
                tasks += 1;
                let next = factor * self.range(1, 4);
                if next <= 120_000 && pivot * next <= 60_000 * divisor {
                    factor = next;
                }
            }
        }
        let header = [b'T', b'S', b'H', 1, 0, tasks, cores as u8, 0];
        [header.to_vec(), task_records, core_records].concat()
    }

    /// A version 1 sheet as one of version 3, with strokes as long as the checker accepts them, or shorter.
    pub fn with_strokes(&mut self, sheet: &Sheet) -> Sheet {
        let mut bytes = sheet.as_bytes().to_vec();
        bytes[3] = 3;
        let most: Vec<u8> = sheet.tasks().map(|t| t.budget.min(255) as u8).collect();
        let mut longest = self.range(1, 255) as u8;
        loop {
            for (task, &most) in most.iter().enumerate() {
                bytes[8 + 10 * task + 5] = self.range(1, u64::from(most.min(longest))) as u8;
            }
            // strokes of one tick are accepted where the sheet is
            match Sheet::check(&bytes) {
                Ok(sheet) => return sheet,
                Err(_) => longest /= 2,
            }
        }
    }
}

/// Thousands of accepted sheets: planned from random job lists with all starts and limits, and made by hand.
pub fn sheets(seed: u64, each: impl FnMut(Sheet)) -> (usize, usize) {
    let mut rng = Rng(seed);
    let mut each = each;
    let (mut planned, mut made) = (0, 0);
    for _ in 0..150 {
        let jobs = rng.jobs();
        for start in 0..jobs.len().max(1) {
            if let Ok(sheet) = plan(&jobs, rng.range(1, 8) as u8, start) {
                planned += 1;
                each(sheet);
            }
        }
    }
    for _ in 0..4000 {
        if let Ok(sheet) = Sheet::check(&rng.made()) {
            made += 1;
            each(sheet);
        }
    }
    (planned, made)
}
