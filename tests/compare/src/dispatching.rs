//! The dispatcher: starts, single calls on any state, long lists of calls.

use crate::checking::{GROUPED_RULES, RULES, STROKE_RULES};
use crate::form;
use crate::on_time::{jobs_on_time, Entry, Promise};
use crate::session::{fail, hex, same, Session};
use crate::stroked::Stroked;
use crate::unbroken::unbroken;
use inputs::*;
use reference::{Core, CoreAnswer, Sheet, TickAnswer};

pub fn must_have_seen(session: &Session) {
    let (none, task) = ("place 0", "a task above 0");
    session.must_have_seen("start", &RULES);
    session.must_have_seen("start", &GROUPED_RULES);
    session.must_have_seen("start of version 3", &STROKE_RULES);
    session.must_have_seen("start of version 3", &[(0, STROKES), (9, "place 0")]);
    session.must_have_seen("start", &[(0, "accepted"), (9, "a missing core")]);
    session.must_have_seen("start_list", &[(0, "no tasks"), (0, "tasks")]);
    session.must_have_seen("start_list", &[(4, none), (5, none), (7, task), (8, task)]);
    session.must_have_seen("release", &[(0, "accepted"), (17, none), (18, task)]);
    session.must_have_seen("release", &[(19, task), (21, none)]);
    session.must_have_seen("finish", &[(0, "accepted"), (17, none), (20, task)]);
    session.must_have_seen("finish", &[(21, none)]);
    session.must_have_seen("tick", &[(0, "idle"), (0, "served"), (21, none)]);
    session.must_have_seen("tick", &SERVED_AT.map(|place| (0, place)));
    session.must_have_seen("tick", &[(0, LAST_PART), (0, PAST)]);
    session.must_have_seen("tick", &[(0, IN_STROKE), (0, HELD), (0, LAST_TICK)]);
    session.must_have_seen("tick", &[(0, OF_TASK_0), (0, BEGINS), (0, WHOLE), (0, CUT)]);
    session.must_have_seen("tick", &[(0, CUT_TO_ONE)]);
    for refusal in [0, 17, 18, 19] {
        session.must_have_seen("release", &[(refusal, IN_STROKE)]);
    }
    for refusal in [0, 17, 20] {
        session.must_have_seen("finish", &[(refusal, IN_STROKE)]);
    }
    session.must_have_seen("finish", &[(0, OWN_STROKE)]);
    for call in ["release", "finish", "tick"] {
        session.must_have_seen(call, &form::REASONS);
    }
    session.must_have_seen("job on time", &VERSIONS.map(|version| (0, version)));
    session.must_have_seen("strokes", &[(0, LONG), (0, WAITED_FOR), (0, FINISHED)]);
}

pub const VERSIONS: [&str; 3] = [
    "of a version 1 sheet",
    "of a version 2 sheet",
    "of a version 3 sheet",
];

const STROKES: &str = "tasks with strokes of several ticks";
const IN_STROKE: &str = "in a stroke";
const OWN_STROKE: &str = "in the job's own stroke";
const HELD: &str = "in a stroke, with a task above it pending";
const LAST_TICK: &str = "the last tick of a stroke";
const OF_TASK_0: &str = "in a stroke of task 0";
const BEGINS: &str = "a stroke begins, and more is left to the job";
const WHOLE: &str = "a stroke begins that ends with the job";
const CUT: &str = "a stroke begins that is cut to the job";
const CUT_TO_ONE: &str = "a stroke is cut to its first tick";
pub const LONG: &str = "a stroke of several ticks";
pub const WAITED_FOR: &str = "a stroke that keeps a task above waiting";
const FINISHED: &str = "a stroke that a finish ends";

/// Where the task that is served stands among its eight, for a library that
/// looks at eight places at a time.
const SERVED_AT: [&str; 8] = [
    "served at place 0 of eight",
    "served at place 1 of eight",
    "served at place 2 of eight",
    "served at place 3 of eight",
    "served at place 4 of eight",
    "served at place 5 of eight",
    "served at place 6 of eight",
    "served at place 7 of eight",
];
const LAST_PART: &str = "served among the last tasks, fewer than eight";
const PAST: &str = "idle, with ticks left past the tasks in the same eight";

pub fn round(session: &mut Session, rng: &mut Rng) {
    lists(session, rng);
    single_calls(session, rng);
    pending_sets(session, rng);
    for _ in 0..9 {
        run_of_sheet(session, rng);
    }
    for _ in 0..6 {
        run_of_list(session, rng);
    }
}

/// Starts from job lists of every length and with every damage.
fn lists(session: &mut Session, rng: &mut Rng) {
    for length in 0..=300usize {
        let mut list = job_list(rng, length.div_ceil(4));
        list.truncate(length);
        start_list(session, &list);
        for kind in 0..JOB_DAMAGES {
            let damaged = damaged_jobs(rng, &list, kind);
            start_list(session, &damaged);
        }
    }
}

/// One call on states of every damage.
fn single_calls(session: &mut Session, rng: &mut Rng) {
    for kind in 0..CORE_DAMAGES {
        for _ in 0..40 {
            let core = any_core(rng, kind);
            tick(session, core);
            let on_core = core.tasks[rng.index(core.count.clamp(1, 64) as usize)].number;
            for number in [on_core as u64, any_number(rng, 64)] {
                release(session, core, number);
                finish(session, core, number);
            }
        }
    }
}

/// A tick on states of every count with every kind of pending sets.
fn pending_sets(session: &mut Session, rng: &mut Rng) {
    for count in 0..=64 {
        for core in pending_states(rng, count) {
            let answer = tick(session, core);
            assert_eq!(answer.refusal, 0, "the state is in form");
            kinds_of_tick(session, &core, answer.task);
        }
    }
}

/// The kinds of an accepted tick by where its task stands, in eights.
fn kinds_of_tick(session: &mut Session, core: &Core, task: u8) {
    let count = core.count as usize;
    let served = |other: &reference::Task| other.number == task;
    match core.used().iter().position(served) {
        Some(place) => {
            session.saw("tick", (0, SERVED_AT[place % 8]));
            if place / 8 == count / 8 {
                session.saw("tick", (0, LAST_PART));
            }
        }
        None => {
            let rest = &core.tasks[count..count.next_multiple_of(8)];
            if rest.iter().any(|task| task.left > 0) {
                session.saw("tick", (0, PAST));
            }
        }
    }
}

/// An accepted sheet, its version, and a style of calls on its cores.
pub fn sheet_to_run(rng: &mut Rng) -> (Vec<u8>, &'static str, u64) {
    let style = rng.range(1, 5);
    match rng.below(6) {
        0 => (planned_sheet(rng), VERSIONS[0], style),
        1 => (handmade_sheet(rng), VERSIONS[0], style),
        2 | 3 => (grouped_sheet(rng), VERSIONS[1], style),
        _ => (stroke_sheet(rng), VERSIONS[2], rng.pick(&[0, 0, style])),
    }
}

/// What a sheet promises of the tasks of a core.
pub fn promises(sheet: &Sheet, core: usize) -> Vec<Promise> {
    let promise = |i: usize| Promise {
        number: i as u64,
        period: sheet.tasks[i].period,
        budget: sheet.tasks[i].budget,
        stroke: sheet.tasks[i].stroke,
        within: Some(sheet.within(i)),
    };
    sheet.by_priority(core).into_iter().map(promise).collect()
}

fn run_of_sheet(session: &mut Session, rng: &mut Rng) {
    let (bytes, version, style) = sheet_to_run(rng);
    let sheet = reference::accept(&bytes).expect("the sheet is accepted");
    if sheet.cores.is_empty() {
        return;
    }
    let number = rng.index(sheet.cores.len());
    let tasks = promises(&sheet, number);
    let fresh = start_sheet(session, &bytes, number as u64).core;
    let input = || format!("{} core {number}", hex(&bytes));
    let log = run(session, rng, fresh, style);
    if on_time(session, &log, &tasks, input) > 0 {
        session.saw("job on time", (0, version));
    }
    strokes(session, "strokes", &log, &tasks, input);
}

fn run_of_list(session: &mut Session, rng: &mut Rng) {
    let count = rng.index(65);
    let list = job_list(rng, count);
    let fresh = start_list(session, &list).core;
    let promise = |task: &reference::Task| Promise {
        number: task.number as u64,
        period: task.period as u64,
        budget: task.budget as u64,
        stroke: 1,
        within: None,
    };
    let tasks: Vec<Promise> = fresh.used().iter().map(promise).collect();
    let style = rng.range(1, 5);
    let log = run(session, rng, fresh, style);
    on_time(session, &log, &tasks, || hex(&list));
    strokes(session, "strokes", &log, &tasks, || hex(&list));
}

/// The log of a long list of calls from a fresh state, each on the state before
/// it.
fn run(session: &mut Session, rng: &mut Rng, fresh: Core, style: u64) -> Vec<Entry> {
    let mut core = fresh;
    let mut log = Vec::new();
    for _ in 0..rng.range(0, 3000) {
        let call = random_call(rng, &core, style);
        let (refusal, task);
        (refusal, task, core) = match call {
            Call::Release(number) => parts(release(session, core, number)),
            Call::Finish(number) => parts(finish(session, core, number)),
            Call::Tick => parts_of_tick(tick(session, core)),
        };
        log.push(Entry {
            call,
            refusal,
            task,
        });
    }
    log
}

/// The number of jobs that were owed and ended in time; a job that did not is
/// a difference.
pub fn on_time(
    session: &mut Session,
    log: &[Entry],
    tasks: &[Promise],
    input: impl Fn() -> String,
) -> u64 {
    match jobs_on_time(log, tasks) {
        Ok(jobs) => {
            session.cases += (jobs > 0) as u64;
            jobs
        }
        Err(what) => {
            let calls: Vec<Call> = log.iter().map(|entry| entry.call).collect();
            fail("the on-time rule", &format!("{} {calls:?}", input()), &what);
        }
    }
}

/// No stroke of the log is broken; a broken one is a difference.
pub fn strokes(
    session: &mut Session,
    call: &'static str,
    log: &[Entry],
    tasks: &[Promise],
    input: impl Fn() -> String,
) {
    match unbroken(log, tasks) {
        Ok(strokes) => {
            session.cases += (strokes.long > 0) as u64;
            let counts = [strokes.long, strokes.held, strokes.finished];
            for (count, kind) in counts.into_iter().zip([LONG, WAITED_FOR, FINISHED]) {
                if count > 0 {
                    session.saw(call, (0, kind));
                }
            }
        }
        Err(what) => {
            let calls: Vec<Call> = log.iter().map(|entry| entry.call).collect();
            fail("unbroken strokes", &format!("{} {calls:?}", input()), &what);
        }
    }
}

pub fn parts(answer: CoreAnswer) -> (u8, u8, Core) {
    (answer.refusal, 0, answer.core)
}

pub fn parts_of_tick(answer: TickAnswer) -> (u8, u8, Core) {
    (answer.refusal, answer.task, answer.core)
}

/// Compare a start from these bytes.
pub fn start(session: &mut Session, rng: &mut Rng, bytes: &[u8]) {
    let cores = bytes.get(6).map_or(0, |&count| count as u64);
    start_sheet(session, bytes, any_number(rng, cores));
}

pub fn start_sheet(session: &mut Session, bytes: &[u8], core: u64) -> CoreAnswer {
    let reference = reference::start_sheet(bytes, core);
    let library = binding::start_sheet(bytes, core);
    let input = || format!("{} core {core}", hex(bytes));
    same("start", input, &reference, &library);
    session.case("start", reference.refusal, reference.place, "accepted");
    if reference.refusal == 9 && reference::accept(bytes).is_ok() {
        session.saw("start", (9, "a missing core"));
    }
    if let Some(stroked) = Stroked::of(bytes) {
        stroked_start(session, &stroked, core, &library, input);
    }
    library
}

/// A start from a version 3 sheet is that from its version 1 sheet but for the
/// stroke lengths, where it is accepted.
fn stroked_start(
    session: &mut Session,
    stroked: &Stroked,
    core: u64,
    library: &CoreAnswer,
    input: impl Fn() -> String,
) {
    let call = "start of version 3";
    let accepted = match stroked.only_short() {
        true => "strokes of one tick only",
        false => STROKES,
    };
    session.case(call, library.refusal, library.place, accepted);
    if library.refusal == 0 {
        let mut plain = binding::start_sheet(&stroked.by_version_1(), core);
        for place in 0..plain.core.count as usize {
            let task = &mut plain.core.tasks[place];
            task.stroke = stroked.length(task.number as usize);
        }
        same(call, input, &plain, library);
    }
}

fn start_list(session: &mut Session, list: &[u8]) -> CoreAnswer {
    let reference = reference::start_list(list);
    let library = binding::start_list(list);
    same("start_list", || hex(list), &reference, &library);
    let accepted = match reference.core.count {
        0 => "no tasks",
        _ => "tasks",
    };
    session.case("start_list", reference.refusal, reference.place, accepted);
    library
}

pub fn release(session: &mut Session, core: Core, number: u64) -> CoreAnswer {
    let reference = reference::release(core, number);
    let library = binding::release(core, number);
    let input = || format!("{} number {number}", state_hex(&core));
    same("release", input, &reference, &library);
    session.case("release", reference.refusal, reference.place, "accepted");
    kinds_of_call(session, "release", &core, reference.refusal);
    library
}

pub fn finish(session: &mut Session, core: Core, number: u64) -> CoreAnswer {
    let reference = reference::finish(core, number);
    let library = binding::finish(core, number);
    let input = || format!("{} number {number}", state_hex(&core));
    same("finish", input, &reference, &library);
    session.case("finish", reference.refusal, reference.place, "accepted");
    if reference.refusal == 0 && in_stroke(&core) && core.stroke_task as u64 == number {
        session.saw("finish", (0, OWN_STROKE));
    } else {
        kinds_of_call(session, "finish", &core, reference.refusal);
    }
    library
}

fn in_stroke(core: &Core) -> bool {
    core.stroke_left > 0
}

/// The kinds of a call in a stroke, and of a call on a Foreign state.
fn kinds_of_call(session: &mut Session, call: &'static str, core: &Core, refusal: u8) {
    if refusal == 21 {
        if let Some(reason) = form::only_reason(core) {
            session.saw(call, (21, reason));
        }
    } else if in_stroke(core) {
        session.saw(call, (refusal, IN_STROKE));
    }
}

pub fn tick(session: &mut Session, core: Core) -> TickAnswer {
    let (reference, library) = (reference::tick(core), binding::tick(core));
    same("tick", || state_hex(&core), &reference, &library);
    let accepted = match (core.count, reference.task) {
        (0, _) => "no tasks",
        (_, reference::IDLE) => "idle",
        _ => "served",
    };
    session.case("tick", reference.refusal, reference.place, accepted);
    kinds_of_call(session, "tick", &core, reference.refusal);
    if reference.refusal == 0 {
        kinds_of_stroke(session, &core, reference.task);
    }
    library
}

/// The kinds of an accepted tick by the stroke in which it is or which it
/// begins.
fn kinds_of_stroke(session: &mut Session, core: &Core, task: u8) {
    let mut saw = |applies: bool, kind: &'static str| {
        if applies {
            session.saw("tick", (0, kind));
        }
    };
    let served = |other: &reference::Task| other.number == task;
    let Some(place) = core.used().iter().position(served) else {
        return;
    };
    if in_stroke(core) {
        let above = &core.tasks[..place];
        saw(above.iter().any(|task| task.left > 0), HELD);
        saw(core.stroke_left == 1, LAST_TICK);
        saw(task == 0, OF_TASK_0);
    } else if core.tasks[place].stroke > 1 {
        let (stroke, left) = (core.tasks[place].stroke as u16, core.tasks[place].left);
        saw(left > stroke, BEGINS);
        saw(left == stroke, WHOLE);
        saw(left < stroke && left > 1, CUT);
        saw(left == 1, CUT_TO_ONE);
    }
}

/// The count, a state's tasks field by field, and the stroke, low byte first.
pub fn state_hex(core: &Core) -> String {
    let mut bytes = core.count.to_le_bytes().to_vec();
    for task in &core.tasks {
        for field in [task.period, task.budget, task.age, task.left] {
            bytes.extend(field.to_le_bytes());
        }
        bytes.extend([task.number, task.stroke]);
    }
    bytes.extend([core.stroke_task, core.stroke_left]);
    hex(&bytes)
}
