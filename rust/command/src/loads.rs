//! The loads of an accepted sheet.

use crate::fields::{Fields, Task};

/// The load of each core in thousandths, rounded up (SHEET.md, sections 3 and 8), in time linear in the number of tasks. The bytes are
/// those of a sheet that the library has accepted; the figures of any others say nothing.
pub fn loads(sheet: &[u8]) -> Vec<u16> {
    let fields = Fields::new(sheet);
    let tasks: Vec<Task> = fields.tasks().collect();
    let cores = fields.cores();
    // L of each core: each factor is a multiple of the one before it by priority, so the last is the largest
    let mut last = vec![1; fields.layout.cores.into()];
    for task in &tasks {
        if let Some(last) = own(&mut last, task) {
            *last = task.factor.max(*last);
        }
    }
    // the sum of e x (L / M), which is below 2^56 for at most 255 tasks of any figures
    let mut work = vec![0; last.len()];
    for task in &tasks {
        if let (Some(last), Some(work)) = (own(&mut last, task), own(&mut work, task)) {
            let times = last.checked_div(task.factor).unwrap_or(0);
            *work += u64::from(task.budget) * u64::from(times);
        }
    }
    let figures = last.into_iter().zip(work);
    cores
        .zip(figures)
        .map(|(core, (last, work))| load(core.pivot, core.divisor, last, work))
        .collect()
}

/// What a column of the cores has for the core of a task.
fn own<'a, T>(column: &'a mut [T], task: &Task) -> Option<&'a mut T> {
    column.get_mut(usize::from(task.core?))
}

fn load(pivot: u16, divisor: u32, last: u32, work: u64) -> u16 {
    let all = u64::from(pivot) * u64::from(last);
    let used = work.saturating_mul(1000 * u64::from(divisor));
    match all {
        0 => u16::MAX,
        _ => u16::try_from(used.div_ceil(all)).unwrap_or(u16::MAX),
    }
}

#[cfg(test)]
mod tests {
    use super::*;
    use crate::rng::Rng;
    use homvaits::{move_sheet, plan, Job, Sheet};

    fn figures(sheet: &Sheet) -> Vec<u16> {
        sheet.cores().map(|core| core.load).collect()
    }

    #[test]
    fn they_are_those_of_the_wrapper_in_every_version() {
        let mut numbers = Rng(1);
        let (mut planned, mut full) = (0, 0);
        for _ in 0..3000 {
            let jobs = numbers.jobs();
            let start = numbers.below(jobs.len().max(1) as u64) as usize;
            let Ok(sheet) = plan(&jobs, 8, start) else {
                continue;
            };
            let moved = move_sheet(sheet.as_bytes()).unwrap();
            assert_eq!(loads(sheet.as_bytes()), figures(&sheet));
            assert_eq!(loads(moved.as_bytes()), figures(&sheet));
            // strokes are not in a load
            let mut strokes = sheet.as_bytes().to_vec();
            strokes[3] = 3;
            for task in sheet.tasks() {
                let longest = u64::from(task.budget.min(255));
                strokes[8 + 10 * usize::from(task.number) + 5] = 1 + numbers.below(longest) as u8;
            }
            assert_eq!(loads(&strokes), figures(&sheet));
            planned += 1;
            full += usize::from(figures(&sheet).len() == 8);
        }
        assert!(planned > 500 && full > 20, "{planned} {full}");
    }

    #[test]
    fn a_load_is_rounded_up() {
        let jobs = |jobs: &[(u16, u16)]| -> Vec<Job> {
            let job = |&(period, budget): &(u16, u16)| Job { period, budget };
            jobs.iter().map(job).collect()
        };
        let load_of = |list: &[(u16, u16)]| loads(plan(&jobs(list), 8, 0).unwrap().as_bytes());
        assert_eq!(load_of(&[]), [0; 0]);
        assert_eq!(load_of(&[(2, 1)]), [500]);
        assert_eq!(load_of(&[(2000, 1999)]), [1000]);
        assert_eq!(load_of(&[(3, 1), (3, 1), (3, 2)]), [667, 667]);
    }

    #[test]
    fn any_bytes_have_an_answer() {
        let mut numbers = Rng(2);
        for _ in 0..20_000 {
            let length = numbers.below(800);
            let mut bytes: Vec<u8> = (0..length).map(|_| numbers.below(256) as u8).collect();
            let often = [0, 1, 2, 64, 255][numbers.below(5) as usize];
            for byte in bytes.iter_mut().skip(3).take(4) {
                *byte = often;
            }
            loads(&bytes);
        }
        // the largest figures that bytes can have
        let mut bytes = vec![255; 8 + 255 * 18];
        bytes[8..].chunks_exact_mut(10).for_each(|task| task[4] = 0);
        loads(&bytes);
    }
}
