//! Rules 1 to 14, and between 8 and 9 rule 23 of version 2 and rule 25 of
//! version 3, each over the whole sheet before the next.

use crate::sheet::{is_spare, length, version, Grouping, Sheet, TaskRecord};
use crate::{
    refuse_at, refuse_if, CheckAnswer, Fraction, Outcome, LARGEST_FACTOR, LONGEST_PERIOD,
    MOST_CORES, MOST_TASKS,
};

pub fn check(bytes: &[u8]) -> CheckAnswer {
    match accept(bytes) {
        Err(refusal) => refusal.into(),
        Ok(sheet) => CheckAnswer {
            tasks: sheet.tasks.len() as u8,
            cores: sheet.cores.len() as u8,
            ..CheckAnswer::default()
        },
    }
}

/// The figures of an accepted sheet of any version, or the first refusal that
/// applies.
pub fn accept(bytes: &[u8]) -> Outcome<Sheet> {
    accept_versions(&[1, 2, 3], bytes)
}

/// The same where rule 3 lets only these versions through.
pub fn accept_versions(versions: &[u64], bytes: &[u8]) -> Outcome<Sheet> {
    refuse_if(1, bytes.len() < 8)?;
    refuse_if(2, !bytes.starts_with(b"TSH"))?;
    let version = version(bytes);
    refuse_if(3, !versions.contains(&version))?;
    let (n, c) = (bytes[5] as usize, bytes[6] as usize);
    refuse_if(4, n > MOST_TASKS || c > MOST_CORES)?;
    refuse_if(5, bytes.len() != length(n, c))?;
    let spare_in_use = |&at: &usize| is_spare(version, at, n) && bytes[at] != 0;
    refuse_at(6, (0..bytes.len()).find(spare_in_use))?;

    let sheet = Sheet::read(bytes, n, c);
    let first_task = |broken: &dyn Fn(&TaskRecord) -> bool| sheet.tasks.iter().position(broken);
    refuse_at(7, first_task(&|task| !period(task.period)))?;
    refuse_at(
        8,
        first_task(&|task| !(1..=task.period).contains(&task.budget)),
    )?;
    // the strokes of versions 1 and 2 are 1, which no budget is below
    refuse_at(
        25,
        first_task(&|task| !(1..=task.budget).contains(&task.stroke)),
    )?;
    if version == 2 {
        let grouping = Grouping::read(bytes, n, c);
        refuse_if(23, !in_order(&sheet, &grouping))?;
        let positions = by_position(sheet, &grouping);
        fits(&positions)?;
        Ok(by_number(positions, &grouping))
    } else {
        refuse_at(9, first_task(&|task| task.core >= c))?;
        fits(&sheet)?;
        Ok(sheet)
    }
}

/// Rules 10 to 14, for tasks whose cores are there: of versions 1 and 3 the
/// tasks by number, of version 2 the tasks by position. These rise on each core
/// in the period and among equal periods in the old number, so that both are
/// sorted alike.
fn fits(sheet: &Sheet) -> Outcome<()> {
    let (tasks, cores) = (&sheet.tasks, &sheet.cores);
    let first_task = |broken: &dyn Fn(usize) -> bool| (0..tasks.len()).find(|&i| broken(i));
    let first_core =
        |broken: &dyn Fn(usize) -> bool| (0..cores.len()).find(|&k| broken(k)).map(core_place);
    refuse_at(10, first_core(&|k| tasks.iter().all(|task| task.core != k)))?;
    refuse_at(11, first_task(&|i| !factor(tasks[i].factor)))?;
    refuse_at(
        11,
        first_core(&|k| !period(cores[k].pivot) || !factor(cores[k].divisor)),
    )?;
    refuse_at(
        12,
        first_task(&|i| sheet.accelerated(i) > Fraction::whole(tasks[i].period as u128)),
    )?;
    refuse_at(13, (0..cores.len()).find_map(|k| broken_chain(sheet, k)))?;
    refuse_at(14, first_core(&|k| !sheet.has_room(k)))
}

/// Rule 23, of records by position: each old number once, counts that add up,
/// and each core by priority.
fn in_order(records: &Sheet, grouping: &Grouping) -> bool {
    let n = records.tasks.len();
    let each_once = (0..n).all(|number| grouping.numbers.contains(&number));
    if !each_once || grouping.counts.iter().sum::<usize>() != n {
        return false;
    }
    let cores = grouping.cores();
    let priority = |i: usize| (records.tasks[i].period, grouping.numbers[i]);
    (1..n).all(|i| cores[i - 1] != cores[i] || priority(i - 1) < priority(i))
}

/// The records with the cores of their positions.
fn by_position(mut records: Sheet, grouping: &Grouping) -> Sheet {
    for (task, core) in records.tasks.iter_mut().zip(grouping.cores()) {
        task.core = core;
    }
    records
}

/// Positions by their old numbers.
fn by_number(positions: Sheet, grouping: &Grouping) -> Sheet {
    let mut tasks = positions.tasks.clone();
    for (task, &number) in positions.tasks.iter().zip(&grouping.numbers) {
        tasks[number] = *task;
    }
    Sheet { tasks, ..positions }
}

fn period(number: u64) -> bool {
    (1..=LONGEST_PERIOD).contains(&number)
}

fn factor(number: u64) -> bool {
    (1..=LARGEST_FACTOR).contains(&number)
}

fn core_place(core: usize) -> usize {
    64 + core
}

/// The first task by priority whose factor is no multiple of the one before.
fn broken_chain(sheet: &Sheet, core: usize) -> Option<usize> {
    let factor = |task: usize| sheet.tasks[task].factor;
    sheet
        .by_priority(core)
        .windows(2)
        .find(|pair| factor(pair[1]) % factor(pair[0]) != 0)
        .map(|pair| pair[1])
}
