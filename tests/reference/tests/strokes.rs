//! Sheets of version 3, and cores whose tasks keep them for strokes.

use reference::*;

/// A sheet of tasks (period, budget, core, stroke length, factor) and cores
/// (pivot, divisor).
fn sheet(tasks: &[(u64, u64, usize, u64, u64)], cores: &[(u64, u64)]) -> Sheet {
    let task = |&(period, budget, core, stroke, factor)| TaskRecord {
        period,
        budget,
        core,
        stroke,
        factor,
    };
    let core = |&(pivot, divisor): &(u64, u64)| CoreRecord { pivot, divisor };
    Sheet {
        tasks: tasks.iter().map(task).collect(),
        cores: cores.iter().map(core).collect(),
    }
}

/// Two tasks that fill a core; the lower one has this stroke length.
fn two(stroke: u64) -> Vec<u8> {
    sheet(&[(2, 1, 0, 1, 1), (7, 3, 0, stroke, 3)], &[(2, 1)]).write_strokes()
}

#[rustfmt::skip]
const TWO: [u8; 36] = [
    b'T', b'S', b'H', 3, 0, 2, 1, 0,
    2, 0, 1, 0, 0, 1, 1, 0, 0, 0,
    7, 0, 3, 0, 0, 2, 3, 0, 0, 0,
    2, 0, 0, 0, 1, 0, 0, 0,
];

/// The refusal and place of these bytes, 0 and 0 where they are accepted. A
/// start and the listing have the same, and the mover 3 instead.
#[track_caller]
fn refusal(bytes: &[u8]) -> (u8, u16) {
    let answer = check(bytes);
    let refusal = (answer.refusal, answer.place);
    if answer.refusal != 0 {
        let start = start_sheet(bytes, 0);
        assert_eq!((start.refusal, start.place), refusal);
        assert_eq!(start.core, Core::EMPTY);
        let line = format!("refused {} place {}\n", refusal.0, refusal.1);
        assert_eq!(list(bytes), line.as_bytes());
    }
    for room in [0, 711, 712, 800] {
        let mut out = vec![0xA5; room];
        let moved = move_sheet(bytes, &mut out);
        assert_eq!((moved.refusal, moved.place, moved.length), (3, 0, 0));
        assert!(out.iter().all(|&byte| byte == 0xA5));
    }
    refusal
}

/// The sheet of two tasks with these bytes changed.
#[track_caller]
fn changed(changes: &[(usize, u8)]) -> (u8, u16) {
    let mut bytes = TWO;
    for &(at, byte) in changes {
        assert_ne!(bytes[at], byte);
        bytes[at] = byte;
    }
    refusal(&bytes)
}

/// Where the fields of the sheet of two tasks stand.
const BUDGET: [usize; 2] = [10, 20];
const CORE: [usize; 2] = [12, 22];
const STROKE: [usize; 2] = [13, 23];

#[test]
fn layout() {
    assert_eq!(two(2), TWO);
    assert_eq!(accept(&TWO).unwrap().write_strokes(), TWO);
    let answer = check(&TWO);
    assert_eq!((answer.refusal, answer.tasks, answer.cores), (0, 2, 1));
    assert_eq!(refusal(b"TSH\x03\x00\x00\x00\x00"), (0, 0));
    assert_eq!(start_sheet(b"TSH\x03\x00\x00\x00\x00", 0).refusal, 9);
}

/// Without B both lines hold with nothing to spare at the lower task; B is 1 for
/// a stroke of 2 and 2 for one of 3.
#[test]
fn room_for_a_stroke() {
    assert_eq!(refusal(&two(1)), (0, 0));
    assert_eq!(refusal(&two(2)), (0, 0));
    assert_eq!(refusal(&two(3)), (14, 64));
    // the same figures in version 1
    let of_version_1 = accept(&two(1)).unwrap().write();
    assert_eq!(check(&of_version_1).refusal, 0);
}

/// B is of the tasks below, on the same core, and the longest of their strokes.
#[test]
fn strokes_below() {
    let three = |strokes: [u64; 3]| {
        let [a, b, c] = strokes;
        let tasks = [(4, 2, 0, a, 1), (8, 2, 0, b, 2), (16, 4, 0, c, 4)];
        refusal(&sheet(&tasks, &[(4, 1)]).write_strokes())
    };
    // 2 of 4 are left for B at the first task, 2 of 8 at the second
    assert_eq!(three([1, 1, 1]), (0, 0));
    assert_eq!(three([2, 2, 3]), (0, 0));
    assert_eq!(three([2, 2, 4]), (14, 64));
    // that of the first task is in no B
    let one = |stroke: u64| {
        let tasks = [(4, 4, 0, stroke, 1)];
        refusal(&sheet(&tasks, &[(4, 1)]).write_strokes())
    };
    assert_eq!(one(4), (0, 0));
    // a middle task may have the longest stroke below
    let below = |middle: u64, last: u64| {
        let tasks = [
            (4, 2, 0, 1, 1),
            (40, 8, 0, middle, 10),
            (40, 4, 0, last, 10),
        ];
        refusal(&sheet(&tasks, &[(4, 1)]).write_strokes())
    };
    assert_eq!(below(3, 1), (0, 0));
    assert_eq!(below(4, 1), (14, 64));
    assert_eq!(below(1, 4), (14, 64));
    // and a task of another core none
    let on = |core: usize| {
        let tasks = [(4, 3, 1, 1, 1), (16, 4, core, 3, 4), (16, 1, 0, 1, 4)];
        refusal(&sheet(&tasks, &[(4, 1), (4, 1)]).write_strokes())
    };
    assert_eq!(on(0), (0, 0));
    assert_eq!(on(1), (14, 65));
}

/// A task above lacks room for the stroke, the last one of the core none; the
/// place is the core.
#[test]
fn overload_of_a_task_above() {
    let tasks = |stroke: u64| [(3, 3, 1, 1, 1), (10, 9, 0, 9, 1), (90, 9, 0, stroke, 9)];
    let cores = [(10, 1), (3, 1)];
    assert_eq!(refusal(&sheet(&tasks(2), &cores).write_strokes()), (0, 0));
    assert_eq!(refusal(&sheet(&tasks(3), &cores).write_strokes()), (14, 64));
    // of two cores the second
    let tasks = [(10, 9, 0, 9, 1), (10, 9, 1, 1, 1), (90, 9, 1, 3, 9)];
    let cores = [(10, 1); 2];
    assert_eq!(refusal(&sheet(&tasks, &cores).write_strokes()), (14, 65));
}

/// B is multiplied by the divisor: w is 4, and 4 and a half are there.
#[test]
fn a_broken_accelerated_period() {
    let with = |budget: u64, stroke: u64| {
        let tasks = [(5, budget, 0, 1, 1), (9, 4, 0, stroke, 2)];
        refusal(&sheet(&tasks, &[(9, 2)]).write_strokes())
    };
    assert_eq!(with(1, 4), (0, 0));
    assert_eq!(with(2, 3), (0, 0));
    assert_eq!(with(2, 4), (14, 64));
}

/// Where all strokes are 1, and in versions 1 and 2, a core has room for each of
/// its tasks exactly when its load is at most one.
#[test]
fn strokes_of_one_tick() {
    let (mut fits, mut over) = (0, 0);
    let factors = [
        [1, 1, 1],
        [1, 1, 2],
        [1, 2, 2],
        [1, 2, 4],
        [1, 3, 3],
        [2, 2, 4],
    ];
    for (factors, pivot) in factors.iter().flat_map(|f| (1..=6).map(move |q| (f, q))) {
        for budgets in (0..125).map(|i| [i % 5 + 1, i / 5 % 5 + 1, i / 25 + 1]) {
            for divisor in 1..=3 {
                let task = |i: usize| (24, budgets[i], 0, 1, factors[i]);
                let sheet = sheet(&[task(0), task(1), task(2)], &[(pivot, divisor)]);
                let expected = match sheet.load(0) > Fraction::whole(1) {
                    true => (14, 64),
                    false => (0, 0),
                };
                for bytes in [sheet.write(), sheet.write_grouped()] {
                    let answer = check(&bytes);
                    assert_eq!((answer.refusal, answer.place), expected);
                }
                assert_eq!(refusal(&sheet.write_strokes()), expected);
                fits += (expected.0 == 0) as u32;
                over += (expected.0 == 14) as u32;
            }
        }
    }
    assert_eq!((fits, over), (1157, 12_343));
}

#[test]
fn stroke_out_of_range() {
    assert_eq!(changed(&[(STROKE[0], 0)]), (25, 0));
    assert_eq!(changed(&[(STROKE[1], 0)]), (25, 1));
    assert_eq!(changed(&[(STROKE[0], 2)]), (25, 0));
    assert_eq!(changed(&[(STROKE[1], 4)]), (25, 1));
    assert_eq!(changed(&[(STROKE[1], 255)]), (25, 1));
    // the first one by number
    assert_eq!(changed(&[(STROKE[0], 2), (STROKE[1], 0)]), (25, 0));
    // up to the budget
    let alone = |budget: u64, stroke: u64| {
        let tasks = [(1000, budget, 0, stroke, 1)];
        refusal(&sheet(&tasks, &[(1000, 1)]).write_strokes())
    };
    for (budget, stroke) in [(1, 1), (254, 254), (255, 255), (256, 255), (1000, 255)] {
        assert_eq!(alone(budget, stroke), (0, 0));
    }
    assert_eq!(alone(254, 255), (25, 0));
    // 256 and more are no 0 and no 1
    assert_eq!(alone(256, 0), (25, 0));
    assert_eq!(alone(257, 2), (0, 0));
}

#[test]
fn stroke_stands_after_budget() {
    // a fault of a later task under an earlier rule
    assert_eq!(changed(&[(STROKE[0], 0), (BUDGET[1], 0)]), (8, 1));
    assert_eq!(changed(&[(STROKE[0], 0), (BUDGET[1], 8)]), (8, 1));
    assert_eq!(changed(&[(STROKE[0], 0), (18, 0)]), (7, 1));
    assert_eq!(changed(&[(STROKE[0], 0), (30, 1)]), (6, 30));
    // a fault of an earlier one under a later rule
    assert_eq!(changed(&[(STROKE[1], 0), (CORE[0], 1)]), (25, 1));
    assert_eq!(changed(&[(STROKE[1], 4), (CORE[0], 255)]), (25, 1));
    assert_eq!(changed(&[(STROKE[1], 0), (14, 0)]), (25, 1));
    assert_eq!(changed(&[(STROKE[1], 0), (28, 0)]), (25, 1));
    assert_eq!(changed(&[(CORE[0], 1)]), (9, 0));
    // without cores
    let mut bytes = TWO[..28].to_vec();
    bytes[6] = 0;
    assert_eq!(refusal(&bytes), (9, 0));
    bytes[STROKE[1]] = 0;
    assert_eq!(refusal(&bytes), (25, 1));
}

#[test]
fn spare_bytes() {
    assert_eq!(changed(&[(7, 1)]), (6, 7));
    assert_eq!(changed(&[(30, 1)]), (6, 30));
    assert_eq!(changed(&[(31, 1)]), (6, 31));
    assert_eq!(changed(&[(31, 255), (30, 2), (STROKE[0], 0)]), (6, 30));
    // the stroke length is a spare byte in the other versions
    for (version, place) in [(1, 13), (2, 13)] {
        let mut bytes = TWO;
        bytes[3] = version;
        assert_eq!(check(&bytes).refusal, 6);
        assert_eq!(check(&bytes).place, place);
    }
}

#[test]
fn listing_without_strokes() {
    let text = "TSH 3 tasks 2 cores 1\n\
        task 0 core 0 period 2 budget 1 factor 1 within 2\n\
        task 1 core 0 period 7 budget 3 factor 3 within 6\n\
        core 0 pivot 2 divisor 1 load 1000\n";
    for stroke in [1, 2] {
        assert_eq!(String::from_utf8(list(&two(stroke))).unwrap(), text);
    }
    let light = |stroke: u64| {
        let tasks = [(4, 1, 0, 1, 1), (8, 3, 0, stroke, 2)];
        list(&sheet(&tasks, &[(4, 1)]).write_strokes())
    };
    assert_eq!(light(3), light(1));
    assert!(light(3).ends_with(b"load 625\n"));
}

/// The mover's 3 stands where rule 3 does.
#[test]
fn not_moved() {
    assert_eq!(refusal(&TWO), (0, 0));
    let moved = |bytes: &[u8]| {
        let answer = move_sheet(bytes, &mut [0; 712]);
        (answer.refusal, answer.place)
    };
    assert_eq!(moved(&TWO[..7]), (1, 0));
    assert_eq!(moved(b"TSI\x03\x00\x00\x00\x00"), (2, 0));
    assert_eq!(moved(b"TSH\x03\x00\x41\x00\x00"), (3, 0));
    assert_eq!(check(b"TSH\x03\x00\x41\x00\x00").refusal, 4);
    assert_eq!(moved(&TWO[..30]), (3, 0));
    assert_eq!(check(&TWO[..30]).refusal, 5);
    assert_eq!(moved(b"TSH\x04\x00\x00\x00\x00"), (3, 0));
}

#[test]
fn starts() {
    let start = start_sheet(&TWO, 0);
    assert_eq!((start.refusal, start.place), (0, 0));
    let mut expected = start_sheet(&accept(&TWO).unwrap().write(), 0).core;
    assert_eq!(expected.used()[1].stroke, 1);
    expected.tasks[1].stroke = 2;
    assert_eq!(start.core, expected);
    assert_eq!((start.core.stroke_task, start.core.stroke_left), (0, 0));
    let past = Task::default();
    assert!(start.core.tasks[2..].iter().all(|&task| task == past));

    let all_one = |core: Core| core.used().iter().all(|task| task.stroke == 1);
    let grouped = start_sheet(&accept(&TWO).unwrap().write_grouped(), 0).core;
    let list = start_list(&[2, 0, 1, 0, 7, 0, 3, 0]).core;
    assert!(all_one(grouped) && all_one(list));
    assert_eq!((grouped.count, list), (2, grouped));
}

/// A core, the calls on it, and its stroke.
#[derive(Clone, Copy)]
struct Run(Core);

impl Run {
    fn of(sheet: &[u8]) -> Run {
        let start = start_sheet(sheet, 0);
        assert_eq!(start.refusal, 0);
        Run(start.core)
    }

    /// A bench core of tasks (period, budget, stroke length).
    fn bench(tasks: &[(u16, u16, u8)]) -> Run {
        let entry = |&(p, e, _): &(u16, u16, u8)| [p.to_le_bytes(), e.to_le_bytes()].concat();
        let list: Vec<u8> = tasks.iter().flat_map(entry).collect();
        let mut core = start_list(&list).core;
        for place in 0..tasks.len() {
            let task = &mut core.tasks[place];
            task.stroke = tasks[task.number as usize].2;
        }
        Run(core)
    }

    fn release(&mut self, number: u64) -> u8 {
        let answer = release(self.0, number);
        self.0 = answer.core;
        answer.refusal
    }

    fn finish(&mut self, number: u64) -> u8 {
        let answer = finish(self.0, number);
        self.0 = answer.core;
        answer.refusal
    }

    fn tick(&mut self) -> u8 {
        let answer = tick(self.0);
        assert_eq!(answer.refusal, 0);
        self.0 = answer.core;
        answer.task
    }

    fn ticks(&mut self, count: usize) -> Vec<u8> {
        (0..count).map(|_| self.tick()).collect()
    }

    /// The number of the task in its stroke and the ticks left to it.
    fn stroke(&self) -> (u8, u8) {
        (self.0.stroke_task, self.0.stroke_left)
    }

    fn left(&self, number: u8) -> u16 {
        let task = self.0.used().iter().find(|task| task.number == number);
        task.unwrap().left
    }
}

/// The lower task has just begun a stroke of 2 when the upper one is released:
/// that one ends on its second tick, with w 2, and the lower one on its fifth,
/// with w 6.
#[test]
fn a_stroke_delays_the_upper_task() {
    let mut run = Run::of(&TWO);
    assert_eq!(run.release(1), 0);
    assert_eq!((run.tick(), run.stroke()), (1, (1, 1)));
    assert_eq!(run.release(0), 0);
    assert_eq!((run.tick(), run.stroke()), (1, (0, 0)));
    assert_eq!((run.tick(), run.left(0)), (0, 0));
    assert_eq!(run.release(0), 0);
    assert_eq!((run.tick(), run.left(0)), (0, 0));
    assert_eq!((run.tick(), run.left(1)), (1, 0));
    assert_eq!(run.stroke(), (0, 0));
    // with strokes of one tick the upper task is first
    let mut run = Run::of(&two(1));
    assert_eq!((run.release(1), run.tick(), run.release(0)), (0, 1, 0));
    assert_eq!((run.tick(), run.stroke()), (0, (0, 0)));
}

/// The sheet that is refused for its B would be late.
#[test]
fn late_without_room() {
    let mut core = Run::of(&TWO).0;
    core.tasks[1].stroke = 3;
    let mut run = Run(core);
    assert_eq!((run.release(1), run.tick(), run.release(0)), (0, 1, 0));
    assert_eq!(run.ticks(2), [1, 1]);
    assert_eq!(run.left(0), 1);
    assert_eq!(run.release(0), 19);
}

#[test]
fn a_stroke_of_exactly_q_ticks() {
    let mut run = Run::bench(&[(9, 1, 1), (50, 20, 4)]);
    assert_eq!((run.release(1), run.tick(), run.stroke()), (0, 1, (1, 3)));
    assert_eq!(run.release(0), 0);
    assert_eq!((run.tick(), run.stroke()), (1, (1, 2)));
    assert_eq!((run.tick(), run.stroke()), (1, (1, 1)));
    assert_eq!((run.tick(), run.stroke()), (1, (0, 0)));
    assert_eq!((run.tick(), run.stroke()), (0, (0, 0)));
    assert_eq!((run.tick(), run.stroke()), (1, (1, 3)));
    assert_eq!(run.left(1), 15);
}

/// The same task may begin anew, and then a task above waits for this stroke.
#[test]
fn a_second_stroke_right_after() {
    let mut run = Run::bench(&[(9, 1, 1), (50, 20, 3)]);
    assert_eq!(run.release(1), 0);
    assert_eq!((run.ticks(3), run.stroke()), (vec![1, 1, 1], (0, 0)));
    assert_eq!((run.tick(), run.stroke()), (1, (1, 2)));
    assert_eq!(run.release(0), 0);
    assert_eq!(run.ticks(4), [1, 1, 0, 1]);
}

#[test]
fn a_stroke_cut_to_the_job() {
    // 5 ticks in strokes of 3 and 2
    let mut run = Run::bench(&[(9, 1, 1), (50, 5, 3)]);
    assert_eq!((run.release(1), run.ticks(3)), (0, vec![1; 3]));
    assert_eq!((run.tick(), run.stroke()), (1, (1, 1)));
    assert_eq!(run.release(0), 0);
    assert_eq!((run.tick(), run.stroke(), run.left(1)), (1, (0, 0), 0));
    assert_eq!(run.ticks(2), [0, IDLE]);
    // the last tick alone is no stroke that lasts
    let mut run = Run::bench(&[(50, 4, 3)]);
    assert_eq!((run.release(0), run.ticks(3)), (0, vec![0; 3]));
    assert_eq!((run.tick(), run.stroke()), (0, (0, 0)));
    assert_eq!((run.tick(), run.stroke()), (IDLE, (0, 0)));
    // more than a byte is left to the job
    let mut run = Run::bench(&[(60_000, 60_000, 255)]);
    assert_eq!((run.release(0), run.tick(), run.stroke()), (0, 0, (0, 254)));
    assert_eq!((run.ticks(254), run.stroke()), (vec![0; 254], (0, 0)));
    assert_eq!((run.tick(), run.stroke()), (0, (0, 254)));
}

/// Number 0 with ticks left is a stroke of task 0.
#[test]
fn a_stroke_of_task_0() {
    let mut run = Run::bench(&[(50, 20, 3), (9, 1, 1)]);
    assert_eq!((run.release(0), run.tick(), run.stroke()), (0, 0, (0, 2)));
    assert_eq!(run.release(1), 0);
    assert_eq!((run.ticks(3), run.stroke()), (vec![0, 0, 1], (0, 0)));
}

/// A job of the upper task waits, and all ages rise, inside a stroke too.
#[test]
fn ages_in_a_stroke() {
    let mut run = Run::bench(&[(4, 1, 1), (50, 20, 3)]);
    assert_eq!((run.release(1), run.tick(), run.release(0)), (0, 1, 0));
    run.ticks(2);
    let ages: Vec<u16> = run.0.used().iter().map(|task| task.age).collect();
    assert_eq!(ages, [2, 3]);
}

#[test]
fn a_finish_ends_its_own_stroke() {
    let mut run = Run::bench(&[(9, 1, 1), (50, 20, 9)]);
    assert_eq!((run.release(1), run.tick(), run.stroke()), (0, 1, (1, 8)));
    assert_eq!((run.finish(1), run.stroke()), (0, (0, 0)));
    assert_eq!(run.tick(), IDLE);
    // a pending task is then first by priority
    let mut run = Run::bench(&[(50, 20, 9), (9, 1, 1), (60, 3, 2)]);
    assert_eq!((run.release(0), run.release(2), run.tick()), (0, 0, 0));
    assert_eq!((run.release(1), run.tick(), run.stroke()), (0, 0, (0, 7)));
    assert_eq!((run.finish(0), run.stroke()), (0, (0, 0)));
    assert_eq!(run.ticks(4), [1, 2, 2, 2]);
}

#[test]
fn other_calls_leave_the_stroke() {
    let mut run = Run::bench(&[(9, 1, 1), (50, 20, 9), (60, 5, 5), (70, 1, 1)]);
    assert_eq!((run.release(1), run.release(2), run.tick()), (0, 0, 1));
    // finishes of other tasks: accepted below and above, refused
    assert_eq!((run.finish(2), run.stroke()), (0, (1, 8)));
    assert_eq!(
        (run.release(0), run.finish(0), run.stroke()),
        (0, 0, (1, 8))
    );
    assert_eq!((run.finish(0), run.stroke()), (20, (1, 8)));
    assert_eq!((run.finish(9), run.stroke()), (17, (1, 8)));
    // one that is the stroke's number in its low byte only
    assert_eq!((run.finish(257), run.stroke()), (17, (1, 8)));
    // releases: accepted, and each refused
    assert_eq!((run.release(3), run.stroke()), (0, (1, 8)));
    assert_eq!((run.release(1), run.stroke()), (18, (1, 8)));
    assert_eq!((run.release(64), run.stroke()), (17, (1, 8)));
    run.0.tasks[1].age = 50;
    assert_eq!((run.release(1), run.stroke()), (19, (1, 8)));
    assert_eq!((run.tick(), run.stroke()), (1, (1, 7)));
}

/// A finished job that is released anew in mid stroke of another begins its own
/// stroke later.
#[test]
fn a_job_after_a_finish_has_its_whole_stroke() {
    let mut run = Run::bench(&[(5, 5, 4)]);
    assert_eq!(
        (run.release(0), run.ticks(2), run.finish(0)),
        (0, vec![0; 2], 0)
    );
    run.ticks(3);
    assert_eq!((run.release(0), run.tick(), run.stroke()), (0, 0, (0, 3)));
}

/// In the stroke of task 7 with 2 of 4 ticks left, its job with 3.
fn in_stroke() -> Core {
    let mut core = Core::EMPTY;
    core.count = 3;
    let task = |period, number, stroke, left| Task {
        period,
        budget: 5,
        age: 1,
        left,
        number,
        stroke,
    };
    core.tasks[0] = task(9, 4, 2, 1);
    core.tasks[1] = task(20, 7, 4, 3);
    core.tasks[2] = task(20, 9, 1, 0);
    (core.stroke_task, core.stroke_left) = (7, 2);
    core
}

/// Whether a state with this done to it is Foreign, by all three calls.
#[track_caller]
fn foreign(change: impl Fn(&mut Core)) -> bool {
    let mut core = in_stroke();
    change(&mut core);
    let ticked = tick(core);
    let is_foreign = ticked.refusal == 21;
    for number in [4, 7, 0, 64] {
        for answer in [release(core, number), finish(core, number)] {
            assert_eq!(answer.refusal == 21, is_foreign);
            assert!(!is_foreign || (answer.place, answer.core) == (0, core));
        }
    }
    assert!(!is_foreign || (ticked.place, ticked.task, ticked.core) == (0, 0, core));
    is_foreign
}

#[test]
fn foreign_stroke_lengths() {
    assert!(!foreign(|_| {}));
    for place in 0..3 {
        assert!(foreign(|core| core.tasks[place].stroke = 0));
        assert!(foreign(|core| core.tasks[place].stroke = 6));
        assert!(foreign(|core| core.tasks[place].stroke = 255));
        assert!(!foreign(|core| core.tasks[place].stroke = 5));
    }
    // a budget above a byte
    assert!(!foreign(|core| {
        (
            core.tasks[0].period,
            core.tasks[1].period,
            core.tasks[2].period,
        ) = (400, 400, 400);
        (core.tasks[0].budget, core.tasks[0].stroke) = (256, 255);
    }));
    // past the tasks
    assert!(!foreign(|core| core.tasks[3].stroke = 0));
    assert!(!foreign(|core| core.tasks[3].stroke = 9));
}

#[test]
fn foreign_strokes() {
    let stroke =
        |task: u8, left: u8| foreign(|core| (core.stroke_task, core.stroke_left) = (task, left));
    // not of a task of the core
    assert!(stroke(0, 1) && stroke(8, 2) && stroke(64, 1) && stroke(255, 1));
    // of one that is not pending
    assert!(stroke(9, 1));
    assert!(foreign(|core| core.tasks[1].left = 0));
    // of more than q - 1 ticks, or of more than the job has
    assert!(stroke(4, 2) && stroke(7, 4) && stroke(7, 255));
    assert!(!stroke(4, 1) && !stroke(7, 3) && !stroke(7, 1));
    assert!(foreign(|core| core.tasks[1].stroke = 2));
    assert!(!foreign(|core| core.tasks[1].stroke = 3));
    assert!(foreign(|core| core.tasks[1].left = 1));
    assert!(!foreign(|core| core.tasks[1].left = 2));
    // without ticks left
    assert!(stroke(7, 0) && stroke(9, 0) && stroke(1, 0) && stroke(255, 0));
    assert!(!stroke(0, 0));
    // of task 0, if there is one
    let of_task_0 = |left: u16| {
        foreign(|core| {
            (core.tasks[1].number, core.tasks[1].left) = (0, left);
            core.stroke_task = 0;
        })
    };
    assert!(!of_task_0(2) && of_task_0(1) && of_task_0(0));
    // past the tasks
    assert!(foreign(|core| {
        core.tasks[3] = core.tasks[1];
        core.tasks[3].number = 11;
        core.stroke_task = 11;
    }));
    assert!(foreign(|core| core.count = 1));
    assert!(foreign(|core| core.count = 0));
}

#[test]
fn a_row_goes_on_with_strokes() {
    let mut row = [in_stroke(), Run::of(&TWO).0, in_stroke()];
    let mut answers = [0; 3];
    assert_eq!(tick_row(&mut row, &mut answers), RowAnswer::default());
    assert_eq!(answers, [7, IDLE, 7]);
    assert_eq!((row[0].stroke_task, row[0].stroke_left), (7, 1));
    assert_eq!(tick_row(&mut row, &mut answers), RowAnswer::default());
    assert_eq!(answers, [7, IDLE, 7]);
    assert_eq!((row[0].stroke_task, row[0].stroke_left), (0, 0));
    assert_eq!(tick_row(&mut row, &mut answers), RowAnswer::default());
    assert_eq!(answers, [4, IDLE, 4]);
    // Foreign by its stroke
    row[1].stroke_task = 1;
    let kept = row;
    let answer = tick_row(&mut row, &mut answers);
    assert_eq!((answer.refusal, answer.place), (21, 1));
    assert_eq!(row, kept);
}
