//! The wrapper as a set uses it.

use homvaits::{check, list, margin, move_sheet, plan};
use homvaits::{Core, Job, Place, Refusal, Sheet, Word, LISTING_MAX};

const JOBS: [Job; 2] = [job(5, 1), job(9, 7)];

const LISTING: &str = "TSH 1 tasks 2 cores 1\n\
task 0 core 0 period 5 budget 1 factor 1 within 4\n\
task 1 core 0 period 9 budget 7 factor 2 within 9\n\
core 0 pivot 9 divisor 2 load 1000\n";

const fn job(period: u16, budget: u16) -> Job {
    Job { period, budget }
}

fn refusal(word: Word, place: Place) -> Refusal {
    Refusal { word, place }
}

/// Age and ticks left of each task, in priority order.
fn ages(core: &Core) -> Vec<(u16, u16)> {
    core.tasks().iter().map(|t| (t.age, t.left)).collect()
}

#[test]
fn a_plan_is_checked_listed_and_run() {
    let sheet = plan(&JOBS, 1, 0).unwrap();
    let counts = check(sheet.as_bytes()).unwrap();
    assert_eq!((counts.tasks, counts.cores), (2, 1));
    assert_eq!(list(sheet.as_bytes(), &mut [0; LISTING_MAX]), LISTING);

    let mut core = Core::start(&sheet, 0).unwrap();
    let second = core.tasks()[1];
    assert_eq!((second.period, second.budget, second.number), (9, 7, 1));
    assert_eq!(
        (second.age, second.left, second.is_pending()),
        (9, 0, false)
    );
    core.release(0).unwrap();
    core.release(1).unwrap();
    assert!(core.tasks().iter().all(|t| t.is_pending()));
    let mut served = Vec::new();
    for i in 0..10 {
        if i == 5 {
            core.release(0).unwrap();
        }
        served.push(core.tick().unwrap());
    }
    assert_eq!(served[..9], [0, 1, 1, 1, 1, 0, 1, 1, 1].map(Some));
    assert_eq!(served[9], None);
    assert!(core.tasks().iter().all(|t| !t.is_pending()));
}

#[test]
fn a_job_ends_before_its_budget_is_used() {
    let sheet = plan(&JOBS, 1, 0).unwrap();
    let mut core = Core::start(&sheet, 0).unwrap();
    core.release(1).unwrap();
    assert_eq!(core.tick(), Ok(Some(1)));
    assert_eq!(ages(&core), [(5, 0), (1, 6)]);
    core.finish(1).unwrap();
    // the age stands
    assert_eq!(ages(&core), [(5, 0), (1, 0)]);
    let quiet = refusal(Word::Quiet, Place::Task(1));
    assert_eq!(core.finish(1), Err(quiet));
    assert_eq!(core.tick(), Ok(None));
}

/// A call on the core is refused so, and the core stays as it was.
#[track_caller]
fn left(core: &mut Core, call: fn(&mut Core) -> Result<(), Refusal>, word: Word, place: Place) {
    let before = core.clone();
    assert_eq!(call(core), Err(refusal(word, place)));
    assert_eq!(*core, before);
}

#[test]
fn a_refused_call_leaves_the_core() {
    // on the bench, where task 1 gets only 3 of its 4 ticks in time
    let mut core = Core::start_list(&[job(5, 2), job(7, 4)]).unwrap();
    left(&mut core, |c| c.finish(0), Word::Quiet, Place::Task(0));
    left(&mut core, |c| c.finish(2), Word::Unlisted, Place::Whole);
    left(&mut core, |c| c.release(255), Word::Unlisted, Place::Whole);
    core.release(0).unwrap();
    core.release(1).unwrap();
    for i in 0..7 {
        if i == 4 {
            left(&mut core, |c| c.release(0), Word::Early, Place::Task(0));
        }
        if i == 5 {
            core.release(0).unwrap();
        }
        core.tick().unwrap();
    }
    left(&mut core, |c| c.release(1), Word::Late, Place::Task(1));
}

#[test]
fn margins_tell_which_job_may_be_late() {
    let jobs = [job(5, 2), job(7, 4), job(35, 1)];
    let margins = [0, 1, 2].map(|task| margin(&jobs, task).unwrap());
    assert_eq!(margins, [3, -1, 0]);

    // the fewest and the most ticks to spare
    let mut long = [job(59_999, 59_999); 64];
    long[63] = job(60_000, 60_000);
    assert_eq!(margin(&long, 63), Ok(-7_559_874));
    assert_eq!(margin(&[job(60_000, 1)], 0), Ok(59_999));

    // what a planned sheet keeps within its period has ticks to spare
    let sheet = plan(&JOBS, 1, 0).unwrap();
    for task in sheet.tasks() {
        let spare = i32::from(task.period) - i32::from(task.within);
        assert!(margin(&JOBS, task.number).unwrap() >= spare);
    }
}

#[test]
fn a_moved_sheet_runs_by_the_old_numbers() {
    // the shorter period is task 1's
    let jobs = [job(9, 7), job(5, 1)];
    let moved = move_sheet(plan(&jobs, 1, 0).unwrap().as_bytes()).unwrap();
    let numbers: Vec<u8> = moved.tasks().map(|task| task.number).collect();
    assert_eq!(numbers, [0, 1]);
    let periods: Vec<u16> = moved.tasks().map(|task| task.period).collect();
    assert_eq!(periods, [9, 5]);
    // the record at position 0 is that of task 1
    assert_eq!(moved.as_bytes()[8..13], [5, 0, 1, 0, 1]);
    let mut core = Core::start(&moved, 0).unwrap();
    core.release(0).unwrap();
    core.release(1).unwrap();
    assert_eq!(core.tick(), Ok(Some(1)));
    assert_eq!(core.tick(), Ok(Some(0)));
    let text = LISTING.replace("TSH 1", "TSH 2");
    let same_order = move_sheet(plan(&JOBS, 1, 0).unwrap().as_bytes()).unwrap();
    assert_eq!(list(same_order.as_bytes(), &mut [0; LISTING_MAX]), text);
}

/// One tick every 5, and seven ticks every 9 in strokes of so many.
fn in_strokes_of(ticks: u8) -> Sheet {
    let mut bytes = plan(&JOBS, 1, 0).unwrap().as_bytes().to_vec();
    bytes[3] = 3;
    bytes[13] = 1;
    bytes[23] = ticks;
    Sheet::check(&bytes).unwrap()
}

/// The task and the ticks left of the stroke that lasts.
fn stroke(core: &Core) -> Option<(u8, u8)> {
    core.stroke().map(|stroke| (stroke.task, stroke.left))
}

#[test]
fn a_stroke_of_the_task_below_is_waited_for() {
    let sheet = in_strokes_of(4);
    let text = LISTING.replace("TSH 1", "TSH 3");
    assert_eq!(list(sheet.as_bytes(), &mut [0; LISTING_MAX]), text);
    let strokes: Vec<u8> = sheet.tasks().map(|task| task.stroke).collect();
    assert_eq!(strokes, [1, 4]);

    let mut core = Core::start(&sheet, 0).unwrap();
    assert_eq!(core.tasks()[1].stroke, 4);
    core.release(1).unwrap();
    let (mut served, mut lasting) = (Vec::new(), Vec::new());
    for i in 0..9 {
        if i == 1 || i == 6 {
            core.release(0).unwrap();
        }
        served.push(core.tick().unwrap().unwrap());
        lasting.push(stroke(&core).map_or(0, |(task, left)| {
            assert_eq!(task, 1);
            left
        }));
    }
    // the job of task 0 ends on its fourth tick, the last that it may; the second stroke of task 1 has the three ticks left
    assert_eq!(served, [1, 1, 1, 1, 0, 1, 1, 1, 0]);
    assert_eq!(lasting, [3, 2, 1, 0, 0, 2, 1, 0, 0]);
}

#[test]
fn a_finish_ends_the_stroke_of_its_own_job_alone() {
    let mut core = Core::start(&in_strokes_of(4), 0).unwrap();
    core.release(1).unwrap();
    assert_eq!(core.tick(), Ok(Some(1)));
    core.release(0).unwrap();
    core.finish(0).unwrap();
    assert_eq!(stroke(&core), Some((1, 3)));
    assert_eq!(core.tick(), Ok(Some(1)));
    left(&mut core, |c| c.finish(0), Word::Quiet, Place::Task(0));
    left(&mut core, |c| c.release(0), Word::Early, Place::Task(0));
    assert_eq!(stroke(&core), Some((1, 2)));
    core.finish(1).unwrap();
    assert_eq!(stroke(&core), None);
    assert_eq!(core.tick(), Ok(None));
}

#[test]
fn a_load_of_650_leaves_no_room_above_a_stroke() {
    // 2 ticks every 10, 9 every 20 in one stroke, and 1 every 10
    let tasks = [
        [10, 0, 2, 0, 0, 1, 1, 0, 0, 0],
        [20, 0, 9, 0, 0, 9, 2, 0, 0, 0],
        [10, 0, 1, 0, 0, 1, 1, 0, 0, 0],
    ];
    let of = |count: u8| {
        let header = [b'T', b'S', b'H', 3, 0, count, 1, 0];
        let tasks = tasks[..usize::from(count)].as_flattened();
        Sheet::check(&[&header, tasks, &[10, 0, 0, 0, 1, 0, 0, 0]].concat())
    };
    let loads: Vec<u16> = of(2).unwrap().cores().map(|core| core.load).collect();
    assert_eq!(loads, [650]);
    assert_eq!(of(3), Err(refusal(Word::Overload, Place::Core(0))));
}

#[test]
fn strokes_of_one_tick_run_as_version_1() {
    let mut plain = Core::start(&plan(&JOBS, 1, 0).unwrap(), 0).unwrap();
    let mut core = Core::start(&in_strokes_of(1), 0).unwrap();
    assert_eq!(core, plain);
    for i in 0..40 {
        for task in 0..2 {
            assert_eq!(core.release(task), plain.release(task));
        }
        assert_eq!((i, core.tick()), (i, plain.tick()));
        assert_eq!(core, plain);
        assert_eq!(core.stroke(), None);
    }
}

#[test]
fn clones_go_their_own_ways() {
    let mut core = Core::start(&plan(&JOBS, 1, 0).unwrap(), 0).unwrap();
    let mut other = core.clone();
    core.release(0).unwrap();
    assert_eq!(other.tick(), Ok(None));
    assert_eq!(core.tick(), Ok(Some(0)));
}

#[test]
fn jobs_are_four_bytes() {
    let entry = job(0x1234, 0xABCD);
    assert_eq!(entry.to_bytes(), [0x34, 0x12, 0xCD, 0xAB]);
    assert_eq!(Job::from_bytes(entry.to_bytes()), entry);
}

#[test]
fn sixty_four_jobs_are_taken_and_sixty_five_are_not() {
    let count = Err(refusal(Word::Count, Place::Whole));
    for n in [0, 1, 63, 64] {
        let jobs = vec![job(60_000, 1); n];
        assert_eq!(plan(&jobs, 8, 0).unwrap().tasks().len(), n);
        assert_eq!(Core::start_list(&jobs).unwrap().tasks().len(), n);
    }
    for n in [65, 66, 1000] {
        let jobs = vec![job(60_000, 1); n];
        assert_eq!(plan(&jobs, 8, 0).map(|_| ()), count);
        assert_eq!(Core::start_list(&jobs).map(|_| ()), count);
    }
    // before a job out of range, as the library has it
    assert_eq!(plan(&[job(0, 0); 65], 8, 0).map(|_| ()), count);
}

#[test]
fn an_empty_sheet_has_no_core_to_start() {
    let sheet = plan(&[], 0, 0).unwrap();
    assert_eq!(sheet, Sheet::check(b"TSH\x01\x00\x00\x00\x00").unwrap());
    assert_eq!((sheet.tasks().len(), sheet.cores().len()), (0, 0));
    let missing = refusal(Word::Core, Place::Whole);
    assert_eq!(Core::start(&sheet, 0), Err(missing));
    let moved = move_sheet(sheet.as_bytes()).unwrap();
    assert_eq!(moved.as_bytes(), b"TSH\x02\x00\x00\x00\x00");
    assert_eq!((moved.tasks().len(), moved.cores().len()), (0, 0));
    assert_eq!(Core::start(&moved, 0), Err(missing));
    assert_eq!(Core::start_list(&[]).unwrap().tasks(), []);
}

#[test]
fn sheets_and_cores_go_between_threads() {
    fn moves<T: Send + Sync + Clone>() {}
    moves::<Sheet>();
    moves::<Core>();
    moves::<Refusal>();
}
