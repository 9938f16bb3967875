//! Rows of cores: each core and answer byte is that of a tick on this core by itself.

use crate::common::{sheets, Rng};
use homvaits::{move_sheet, plan, tick_row, Core, Job, Place, Refusal, Sheet, Word, IDLE};

/// A byte that no answer has.
const KEPT: u8 = 170;

fn started(sheet: &Sheet) -> Vec<Core> {
    (0..sheet.cores().len() as u8)
        .map(|core| Core::start(sheet, core).unwrap())
        .collect()
}

#[test]
fn two_cores_on_three_beats() {
    // tasks 3, 1 and 4 are on core 0, tasks 2 and 0 on core 1
    let bytes = [
        b'T', b'S', b'H', 1, 0, 5, 2, 0, // header
        9, 0, 7, 0, 1, 0, 2, 0, 0, 0, // task 0
        8, 0, 2, 0, 0, 0, 2, 0, 0, 0, // task 1
        5, 0, 1, 0, 1, 0, 1, 0, 0, 0, // task 2
        4, 0, 1, 0, 0, 0, 1, 0, 0, 0, // task 3
        8, 0, 1, 0, 0, 0, 2, 0, 0, 0, // task 4
        4, 0, 0, 0, 1, 0, 0, 0, // core 0
        9, 0, 0, 0, 2, 0, 0, 0, // core 1
    ];
    let mut row = started(&Sheet::check(&bytes).unwrap());
    for (core, task) in [(0, 3), (0, 4), (1, 2), (1, 0)] {
        row[core].release(task).unwrap();
    }
    let mut answers = [KEPT; 3];
    tick_row(&mut row, &mut answers).unwrap();
    assert_eq!(answers, [3, 2, KEPT]);
    tick_row(&mut row, &mut answers).unwrap();
    assert_eq!(answers, [4, 0, KEPT]);
    tick_row(&mut row, &mut answers).unwrap();
    assert_eq!(answers, [IDLE, 0, KEPT]);
    let ages = |core: &Core| -> Vec<(u8, u16, u16)> {
        let tasks = core.tasks().iter();
        tasks.map(|t| (t.number, t.age, t.left)).collect()
    };
    assert_eq!(ages(&row[0]), [(3, 3, 0), (1, 8, 0), (4, 3, 0)]);
    assert_eq!(ages(&row[1]), [(2, 3, 0), (0, 3, 5)]);
}

#[test]
fn an_empty_row_is_accepted() {
    assert_eq!(tick_row(&mut [], &mut []), Ok(()));
    let mut answers = [KEPT; 2];
    assert_eq!(tick_row(&mut [], &mut answers), Ok(()));
    assert_eq!(answers, [KEPT; 2]);
}

#[test]
fn a_core_without_tasks_is_idle_in_its_row() {
    let jobs = [Job {
        period: 1,
        budget: 1,
    }];
    let mut row = [
        Core::start_list(&[]).unwrap(),
        Core::start(&plan(&jobs, 1, 0).unwrap(), 0).unwrap(),
    ];
    row[1].release(0).unwrap();
    let mut answers = [KEPT; 2];
    assert_eq!(tick_row(&mut row, &mut answers), Ok(()));
    assert_eq!(answers, [IDLE, 0]);
    assert_eq!(row[0].tasks(), []);
}

/// What the answers of a core tell of strokes: the ticks of each task since its last release, and who had the last tick.
#[derive(Clone)]
struct Strokes {
    had: [u16; 64],
    last: Option<u8>,
}

impl Strokes {
    /// A task has a tick. Between two ticks of one stroke no other tick came. Answers whether it goes on with a stroke.
    fn tick(&mut self, sheet: &Sheet, task: Option<u8>) -> bool {
        let mut goes_on = false;
        if let Some(number) = task {
            let had = &mut self.had[usize::from(number)];
            let stroke = sheet.tasks().nth(number.into()).unwrap().stroke;
            goes_on = *had % u16::from(stroke) != 0;
            assert!(!goes_on || self.last == task);
            *had += 1;
        }
        self.last = task;
        goes_on
    }
}

#[test]
fn rows_of_all_cores_of_a_sheet_run_as_each_core_by_itself_and_on_time() {
    let mut rng = Rng(6);
    let (mut longest, mut served, mut idle, mut short, mut unbroken) = (0, 0, 0, 0, 0);
    sheets(7, |sheet| {
        if rng.range(0, 15) > 0 {
            return;
        }
        let sheet = match rng.range(0, 2) {
            0 => sheet,
            1 => move_sheet(sheet.as_bytes()).unwrap(),
            _ => rng.with_strokes(&sheet),
        };
        let within: Vec<u16> = sheet.tasks().map(|task| task.within).collect();
        let fresh = Strokes {
            had: [0; 64],
            last: None,
        };
        let mut strokes = vec![fresh; sheet.cores().len()];
        let mut row = started(&sheet);
        let mut alone = row.clone();
        let count = row.len();
        longest = longest.max(count);
        for _ in 0..60 {
            let cores = row.iter_mut().zip(&mut alone).zip(&mut strokes);
            for ((core, other), strokes) in cores {
                let numbers: Vec<u8> = core.tasks().iter().map(|task| task.number).collect();
                for number in numbers {
                    match rng.range(0, 19) {
                        0..=9 => {
                            let answer = core.release(number);
                            assert_eq!(answer, other.release(number));
                            if answer.is_ok() {
                                strokes.had[usize::from(number)] = 0;
                            }
                        }
                        10 => assert_eq!(core.finish(number), other.finish(number)),
                        _ => {}
                    }
                }
            }
            let mut answers = [KEPT; 10];
            if count > 0 && rng.range(0, 4) == 0 {
                let refusal = Refusal {
                    word: Word::Row,
                    place: Place::Whole,
                };
                let length = rng.range(0, count as u64 - 1) as usize;
                assert_eq!(tick_row(&mut row, &mut answers[..length]), Err(refusal));
                assert!(row == alone && answers == [KEPT; 10]);
                short += 1;
            }
            tick_row(&mut row, &mut answers).unwrap();
            for ((core, answer), strokes) in alone.iter_mut().zip(answers).zip(&mut strokes) {
                let stroke = core.stroke();
                let task = core.tick().unwrap();
                assert_eq!(answer, task.unwrap_or(IDLE));
                // a stroke that lasts is what the answers tell
                assert_eq!(strokes.tick(&sheet, task), stroke.is_some());
                assert!(stroke.is_none_or(|stroke| Some(stroke.task) == task));
                unbroken += usize::from(stroke.is_some());
                served += usize::from(task.is_some());
                idle += usize::from(task.is_none());
            }
            assert!(row == alone);
            assert!(answers[count..].iter().all(|&byte| byte == KEPT));
            // a job that is pending is younger than its task's `within`
            for task in row.iter().flat_map(|core| core.tasks()) {
                assert!(!task.is_pending() || task.age < within[usize::from(task.number)]);
            }
        }
    });
    println!("rows of up to {longest} cores, {served} served, {unbroken} in a stroke, {idle} idle, {short} refused");
    assert!(longest == 8 && served > 10_000 && idle > 10_000 && short > 1000);
    assert!(unbroken > 1000);
}
