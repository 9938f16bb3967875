//! Each kind of refusal: word, place and text.

use homvaits::{check, margin, move_sheet, plan, tick_row};
use homvaits::{Core, Job, Place, Refusal, Sheet, Word};

/// Three tasks that fill one core: 3 1, 7 1 and 13 6, with factors 1, 2 and 4.
const FULL: [u8; 46] = [
    b'T', b'S', b'H', 1, 0, 3, 1, 0, // header
    3, 0, 1, 0, 0, 0, 1, 0, 0, 0, // task 0
    7, 0, 1, 0, 0, 0, 2, 0, 0, 0, // task 1
    13, 0, 6, 0, 0, 0, 4, 0, 0, 0, // task 2
    3, 0, 0, 0, 1, 0, 0, 0, // core 0
];

const VERSION: &str =
    "refused 3 (Version): the version is not 1, 2 or 3, or it is 3 and the sheet was to be moved";

fn job(period: u16, budget: u16) -> Job {
    Job { period, budget }
}

#[track_caller]
fn refused<T: std::fmt::Debug>(answer: Result<T, Refusal>, word: Word, place: Place, text: &str) {
    let refusal = answer.unwrap_err();
    assert_eq!(refusal, Refusal { word, place });
    assert_eq!(refusal.to_string(), text);
    let error: Box<dyn std::error::Error> = Box::new(refusal);
    assert_eq!(error.to_string(), text);
}

#[test]
fn sheets() {
    assert!(Sheet::check(&FULL).is_ok());
    let changed = |at: usize, byte: u8| {
        let mut bytes = FULL;
        bytes[at] = byte;
        let refusal = Sheet::check(&bytes).unwrap_err();
        assert_eq!(check(&bytes).unwrap_err(), refusal);
        assert_eq!(move_sheet(&bytes).unwrap_err(), refusal);
        Sheet::check(&bytes)
    };
    refused(
        Sheet::check(&FULL[..7]),
        Word::Stub,
        Place::Whole,
        "refused 1 (Stub): there are fewer than 8 bytes",
    );
    refused(
        changed(0, b't'),
        Word::Mark,
        Place::Whole,
        "refused 2 (Mark): the bytes do not begin with T S H",
    );
    refused(changed(3, 4), Word::Version, Place::Whole, VERSION);
    refused(
        changed(5, 65),
        Word::Count,
        Place::Whole,
        "refused 4 (Count): there are over 64 tasks, over 8 cores or a core limit above 8",
    );
    refused(
        changed(5, 4),
        Word::Length,
        Place::Whole,
        "refused 5 (Length): the length is not the one that the counts give",
    );
    refused(
        changed(7, 1),
        Word::Spare,
        Place::Offset(7),
        "refused 6 (Spare) at byte 7: a spare byte is not zero",
    );
    refused(
        changed(41, 1),
        Word::Spare,
        Place::Offset(41),
        "refused 6 (Spare) at byte 41: a spare byte is not zero",
    );
    refused(
        changed(18, 0),
        Word::Period,
        Place::Task(1),
        "refused 7 (Period) at task 1: the period is not 1 to 60,000",
    );
    refused(
        changed(10, 4),
        Word::Budget,
        Place::Task(0),
        "refused 8 (Budget) at task 0: the budget is 0 or above the period",
    );
    refused(
        changed(12, 1),
        Word::Core,
        Place::Task(0),
        "refused 9 (Core) at task 0: there is no such core",
    );
    let factor = "a factor or divisor is not 1 to 120,000, or a pivot not 1 to 60,000";
    refused(
        changed(24, 0),
        Word::Factor,
        Place::Task(1),
        &format!("refused 11 (Factor) at task 1: {factor}"),
    );
    refused(
        changed(42, 0),
        Word::Factor,
        Place::Core(0),
        &format!("refused 11 (Factor) at core 0: {factor}"),
    );
    refused(
        changed(34, 5),
        Word::Stretch,
        Place::Task(2),
        "refused 12 (Stretch) at task 2: the accelerated period is longer than the period",
    );
    refused(
        changed(34, 3),
        Word::Chain,
        Place::Task(2),
        "refused 13 (Chain) at task 2: the factor is no multiple of the one before it by priority",
    );
    refused(
        changed(30, 7),
        Word::Overload,
        Place::Core(0),
        "refused 14 (Overload) at core 0: the core has more work than time",
    );

    let mut bare = [&FULL[..], &FULL[38..]].concat();
    bare[6] = 2;
    let answer = Sheet::check(&bare);
    assert_eq!(answer.as_ref().unwrap_err().place.number(), 65);
    refused(
        answer,
        Word::Bare,
        Place::Core(1),
        "refused 10 (Bare) at core 1: the core has no task",
    );
}

/// The three tasks in version 2: 0, 1 and 2 in this order on the one core.
const GROUPED: [u8; 46] = [
    b'T', b'S', b'H', 2, 0, 3, 1, 0, // header
    3, 0, 1, 0, 0, 0, 1, 0, 0, 0, // position 0
    7, 0, 1, 0, 1, 0, 2, 0, 0, 0, // position 1
    13, 0, 6, 0, 2, 0, 4, 0, 0, 0, // position 2
    3, 0, 3, 0, 1, 0, 0, 0, // core 0
];

#[test]
fn sheets_of_version_2() {
    assert_eq!(move_sheet(&FULL).unwrap().as_bytes(), GROUPED);
    assert_eq!(move_sheet(&GROUPED).unwrap().as_bytes(), FULL);
    let changed = |at: usize, byte: u8| {
        let mut bytes = GROUPED;
        bytes[at] = byte;
        let refusal = Sheet::check(&bytes).unwrap_err();
        assert_eq!(check(&bytes).unwrap_err(), refusal);
        move_sheet(&bytes)
    };
    let order = "refused 23 (Order): the old numbers, the task counts or the order of a core's tasks are wrong";
    // a number twice, one too high, the count, the order by period
    for (at, byte) in [(12, 1), (32, 3), (40, 2), (18, 14)] {
        refused(changed(at, byte), Word::Order, Place::Whole, order);
    }
    refused(
        changed(41, 1),
        Word::Spare,
        Place::Offset(41),
        "refused 6 (Spare) at byte 41: a spare byte is not zero",
    );
    refused(
        changed(34, 3),
        Word::Chain,
        Place::Task(2),
        "refused 13 (Chain) at task 2: the factor is no multiple of the one before it by priority",
    );

    let sheet = Sheet::check(&GROUPED).unwrap();
    refused(
        Core::start(&sheet, 1),
        Word::Core,
        Place::Whole,
        "refused 9 (Core): there is no such core",
    );
}

/// The three tasks in version 3, with strokes of 1, 1 and 2 ticks. The core is full, but task 0 could wait for 2 ticks.
const STROKED: [u8; 46] = [
    b'T', b'S', b'H', 3, 0, 3, 1, 0, // header
    3, 0, 1, 0, 0, 1, 1, 0, 0, 0, // task 0
    7, 0, 1, 0, 0, 1, 2, 0, 0, 0, // task 1
    13, 0, 6, 0, 0, 2, 4, 0, 0, 0, // task 2
    3, 0, 0, 0, 1, 0, 0, 0, // core 0
];

#[test]
fn sheets_of_version_3() {
    assert!(Sheet::check(&STROKED).is_ok());
    refused(move_sheet(&STROKED), Word::Version, Place::Whole, VERSION);
    let changed = |at: usize, byte: u8| {
        let mut bytes = STROKED;
        bytes[at] = byte;
        let refusal = Sheet::check(&bytes).unwrap_err();
        assert_eq!(check(&bytes).unwrap_err(), refusal);
        // whatever else is wrong
        refused(move_sheet(&bytes), Word::Version, Place::Whole, VERSION);
        Sheet::check(&bytes)
    };
    let stroke = "the stroke length is 0 or above the budget";
    for (at, byte, task) in [(13, 0, 0), (13, 2, 0), (23, 2, 1), (33, 0, 2), (33, 7, 2)] {
        let text = format!("refused 25 (Stroke) at task {task}: {stroke}");
        refused(changed(at, byte), Word::Stroke, Place::Task(task), &text);
    }
    // a stroke of 3 fits below task 0, one of 4 does not
    let mut longer = STROKED;
    longer[33] = 3;
    assert!(Sheet::check(&longer).is_ok());
    refused(
        changed(33, 4),
        Word::Overload,
        Place::Core(0),
        "refused 14 (Overload) at core 0: the core has more work than time",
    );
    refused(
        changed(7, 1),
        Word::Spare,
        Place::Offset(7),
        "refused 6 (Spare) at byte 7: a spare byte is not zero",
    );
    refused(
        changed(40, 1),
        Word::Spare,
        Place::Offset(40),
        "refused 6 (Spare) at byte 40: a spare byte is not zero",
    );
    refused(
        changed(12, 1),
        Word::Core,
        Place::Task(0),
        "refused 9 (Core) at task 0: there is no such core",
    );
    let sheet = Sheet::check(&STROKED).unwrap();
    refused(
        Core::start(&sheet, 1),
        Word::Core,
        Place::Whole,
        "refused 9 (Core): there is no such core",
    );
}

#[test]
fn plans() {
    let jobs = [job(10, 4), job(15, 9)];
    refused(
        plan(&jobs, 9, 0),
        Word::Count,
        Place::Whole,
        "refused 4 (Count): there are over 64 tasks, over 8 cores or a core limit above 8",
    );
    refused(
        plan(&[jobs[0], job(60_001, 1)], 8, 0),
        Word::Period,
        Place::Task(1),
        "refused 7 (Period) at task 1: the period is not 1 to 60,000",
    );
    refused(
        plan(&[job(5, 6)], 8, 0),
        Word::Budget,
        Place::Task(0),
        "refused 8 (Budget) at task 0: the budget is 0 or above the period",
    );
    refused(
        plan(&jobs, 1, 2),
        Word::Start,
        Place::Whole,
        "refused 22 (Start): the start is no position in the ring",
    );
    refused(
        plan(&[], 1, usize::MAX),
        Word::Start,
        Place::Whole,
        "refused 22 (Start): the start is no position in the ring",
    );
    refused(
        plan(&jobs, 1, 0),
        Word::NoFit,
        Place::Task(1),
        "refused 15 (No fit) at task 1: the planner finds no core for the task",
    );
    refused(
        plan(&jobs, 0, 0),
        Word::NoFit,
        Place::Task(0),
        "refused 15 (No fit) at task 0: the planner finds no core for the task",
    );
}

#[test]
fn cores() {
    let sheet = Sheet::check(&FULL).unwrap();
    refused(
        Core::start(&sheet, 1),
        Word::Core,
        Place::Whole,
        "refused 9 (Core): there is no such core",
    );
    refused(
        Core::start(&sheet, 255),
        Word::Core,
        Place::Whole,
        "refused 9 (Core): there is no such core",
    );
    refused(
        Core::start_list(&[job(0, 1)]),
        Word::Period,
        Place::Task(0),
        "refused 7 (Period) at task 0: the period is not 1 to 60,000",
    );
    refused(
        Core::start_list(&[job(1, 1), job(5, 0)]),
        Word::Budget,
        Place::Task(1),
        "refused 8 (Budget) at task 1: the budget is 0 or above the period",
    );

    let mut core = Core::start_list(&[job(9, 1), job(1, 1), job(1, 1)]).unwrap();
    assert_eq!(
        core.tasks().iter().map(|t| t.number).collect::<Vec<_>>(),
        [1, 2, 0]
    );
    refused(
        core.release(3),
        Word::Unlisted,
        Place::Whole,
        "refused 17 (Unlisted): the core or the job list has no such task",
    );
    refused(
        core.finish(2),
        Word::Quiet,
        Place::Task(2),
        "refused 20 (Quiet) at task 2: the task has no pending job",
    );
    core.release(0).unwrap();
    core.release(1).unwrap();
    core.release(2).unwrap();
    refused(
        core.release(0),
        Word::Early,
        Place::Task(0),
        "refused 18 (Early) at task 0: fewer ticks than its period since the task's last release",
    );
    assert_eq!(core.tick(), Ok(Some(1)));
    refused(
        core.release(2),
        Word::Late,
        Place::Task(2),
        "refused 19 (Late) at task 2: the task's last job is still pending",
    );
}

#[test]
fn rows() {
    let mut core = Core::start_list(&[job(5, 2)]).unwrap();
    core.release(0).unwrap();
    let mut row = vec![core; 3];
    let before = row.clone();
    for length in 0..3 {
        let mut answers = vec![170; length];
        refused(
            tick_row(&mut row, &mut answers),
            Word::Row,
            Place::Whole,
            "refused 24 (Row): there are fewer answer bytes than core states",
        );
        assert_eq!((&row, answers), (&before, vec![170; length]));
    }
}

#[test]
fn margins() {
    refused(
        margin(&[job(0, 0); 65], 99),
        Word::Count,
        Place::Whole,
        "refused 4 (Count): there are over 64 tasks, over 8 cores or a core limit above 8",
    );
    refused(
        margin(&[job(5, 6), job(60_001, 1)], 2),
        Word::Period,
        Place::Task(1),
        "refused 7 (Period) at task 1: the period is not 1 to 60,000",
    );
    refused(
        margin(&[job(5, 5), job(9, 0)], 2),
        Word::Budget,
        Place::Task(1),
        "refused 8 (Budget) at task 1: the budget is 0 or above the period",
    );
    let unlisted = "refused 17 (Unlisted): the core or the job list has no such task";
    let jobs = [job(5, 5), job(9, 1)];
    refused(margin(&jobs, 2), Word::Unlisted, Place::Whole, unlisted);
    refused(margin(&jobs, 255), Word::Unlisted, Place::Whole, unlisted);
    refused(margin(&[], 0), Word::Unlisted, Place::Whole, unlisted);
}

#[test]
fn words_that_no_call_of_the_wrapper_gives() {
    let tight = Refusal {
        word: Word::Tight,
        place: Place::Whole,
    };
    assert_eq!(
        tight.to_string(),
        "refused 16 (Tight): the output is too short"
    );
    let foreign = Refusal {
        word: Word::Foreign,
        place: Place::Whole,
    };
    assert_eq!(
        foreign.to_string(),
        "refused 21 (Foreign): the state is damaged"
    );
    let in_a_row = Refusal {
        place: Place::Row(70_000),
        ..foreign
    };
    assert_eq!((in_a_row.number(), in_a_row.place.number()), (21, 70_000));
    assert_eq!(
        in_a_row.to_string(),
        "refused 21 (Foreign) at row position 70000: the state is damaged"
    );
}
