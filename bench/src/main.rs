//! Times the verified library against plain Rust on the same inputs, both in
//! this run and both built for release. Argument: seed.

use bench::{plain, workload};
use inputs::Rng;
use reference::{Core, RowAnswer, IDLE};
use std::hint::black_box;
use std::time::Instant;

const PASSES: usize = 9;

fn main() {
    let seed = std::env::args().nth(1).map_or(1, |argument| {
        argument.parse().expect("the argument is a number: seed")
    });
    binding::assert_layout();
    let mut rng = Rng::new(seed);
    let sheets = workload::sheets(&mut rng, 100_000);
    check(&sheets, 1);
    plan(&mut rng);
    tick();
    row();
    margin(&mut rng);
    versions(&sheets);
    for version in [2, 3] {
        check(&workload::sheets_of(&mut rng, version, 100_000), version);
    }
}

fn check(sheets: &[Vec<u8>], version: usize) {
    let mut accepted = 0;
    for sheet in sheets {
        let answer = plain::check(sheet);
        assert_eq!(answer, binding::check(sheet), "they differ on a sheet");
        assert_eq!(answer, reference::check(sheet), "they differ on a sheet");
        accepted += (answer.refusal == 0) as usize;
    }
    let bytes: usize = sheets.iter().map(Vec::len).sum();
    println!(
        "check of {} sheets of version {version}, {accepted} accepted, {} bytes on average:",
        sheets.len(),
        bytes / sheets.len()
    );
    let run = |call: fn(&[u8]) -> reference::CheckAnswer| {
        for sheet in sheets {
            black_box(call(black_box(sheet)));
        }
    };
    compare(sheets.len(), || run(plain::check), || run(binding::check));
    println!("the same, with the reference, which is written for reading, as plain:");
    compare(
        sheets.len(),
        || run(reference::check),
        || run(binding::check),
    );
}

fn plan(rng: &mut Rng) {
    let lists = workload::full_lists(rng, 50);
    let mut out = [0; 712];
    for list in &lists {
        let mut other = out;
        let answer = plain::plan(list, 8, 0, &mut out);
        assert_eq!(answer, binding::plan(list, 8, 0, &mut other));
        assert_eq!(out, other, "they differ on a plan");
    }
    println!("plan of 64 tasks on 8 cores, {} lists:", lists.len());
    type Plan = fn(&[u8], u64, u64, &mut [u8]) -> reference::PlanAnswer;
    let run = |call: Plan| {
        let mut out = [0; 712];
        for list in &lists {
            black_box(call(black_box(list), 8, 0, &mut out));
        }
    };
    compare(lists.len(), || run(plain::plan), || run(binding::plan));
}

fn tick() {
    let (last, none) = (workload::last_pending, workload::none_pending);
    ticks("64 tasks, only the last pending", last(64), 63);
    ticks("64 tasks, none pending", none(64), IDLE);
    ticks("8 tasks, only the last pending", last(8), 7);
    let in_stroke = workload::in_stroke;
    ticks("64 tasks, the last in its strokes", in_stroke(64), 63);
    ticks("8 tasks, the last in its strokes", in_stroke(8), 7);
}

/// Ticks from this state, all with this answer.
fn ticks(name: &str, first: Core, task: u8) {
    const TICKS: usize = 50_000;
    let run = |call: fn(Core) -> reference::TickAnswer| {
        let mut core = first;
        for _ in 0..TICKS {
            let answer = call(black_box(core));
            assert_eq!(answer.task, task);
            core = answer.core;
        }
        core
    };
    assert_eq!(
        run(plain::tick),
        run(binding::tick),
        "they differ on a tick"
    );
    println!("tick on a core of {name}:");
    compare(TICKS, || run(plain::tick), || run(binding::tick));
}

fn row() {
    let (last, none) = (workload::last_pending, workload::none_pending);
    rows("64 tasks each, only the last pending", last(64), 63);
    rows("64 tasks each, none pending", none(64), IDLE);
    let in_stroke = workload::in_stroke(64);
    rows("64 tasks each, the last in its strokes", in_stroke, 63);
}

/// Rows of so many cores that begin with this state, all with this answer. Every
/// row is the same work: the last job has 60,000 ticks, and no other task was
/// released. Each pass begins anew.
fn rows(name: &str, first: Core, task: u8) {
    const ROWS: usize = 10_000;
    const CORES: usize = 8;
    let run = |call: fn(&mut [Core], &mut [u8]) -> RowAnswer| {
        let (mut row, mut answers) = ([first; CORES], [0; CORES]);
        for _ in 0..ROWS {
            let answer = call(black_box(&mut row), &mut answers);
            assert_eq!((answer.refusal, answers), (0, [task; CORES]));
        }
        row
    };
    let expected = run(plain::tick_row);
    assert_eq!(run(binding::tick_row), expected, "they differ on a row");
    assert_eq!(run(single_ticks), expected, "they differ on a row");
    println!("tick of a row of {CORES} cores of {name}:");
    let [plain, single, library] = best(
        ROWS,
        [&|| run(plain::tick_row), &|| run(single_ticks), &|| {
            run(binding::tick_row)
        }],
    );
    println!(
        "  plain {plain:.1} ns, single ticks {single:.1} ns, library {library:.1} ns, \
         row/single {:.2}, row/plain {:.2}",
        library / single,
        library / plain
    );
}

/// A row as a caller ticks it by single calls of the library.
fn single_ticks(row: &mut [Core], answers: &mut [u8]) -> RowAnswer {
    for (core, answer) in row.iter_mut().zip(answers) {
        let ticked = binding::tick(*core);
        *core = ticked.core;
        *answer = ticked.task;
    }
    RowAnswer::default()
}

fn margin(rng: &mut Rng) {
    let lists = workload::busy_lists(rng, 200);
    let mut fitting = 0;
    for list in &lists {
        let mut fits = true;
        for number in 0..64 {
            let answer = plain::margin(list, number);
            assert_eq!(
                answer,
                binding::margin(list, number),
                "they differ on a margin"
            );
            fits &= answer.margin >= 0;
        }
        fitting += fits as usize;
    }
    println!(
        "all margins of a list of 64 tasks, {} lists, {fitting} without one below zero:",
        lists.len()
    );
    let run = |call: fn(&[u8], u64) -> reference::MarginAnswer| {
        for list in &lists {
            for number in 0..64 {
                black_box(call(black_box(list), number));
            }
        }
    };
    compare(lists.len(), || run(plain::margin), || run(binding::margin));
}

/// The accepted sheets, the same in version 2 and the same in version 3: checked,
/// and the first two moved to each other.
fn versions(sheets: &[Vec<u8>]) {
    let [first, second, third] = workload::all_versions(sheets);
    for sheet in &third {
        let answer = plain::check(sheet);
        assert_eq!(answer.refusal, 0);
        assert_eq!(answer, binding::check(sheet), "they differ on a sheet");
    }
    for (sheet, moved) in first.iter().zip(&second) {
        for (from, to) in [(sheet, moved), (moved, sheet)] {
            let answer = plain::check(from);
            assert_eq!(answer, binding::check(from), "they differ on a sheet");
            for call in [plain::move_sheet, binding::move_sheet] {
                let mut out = [0; 712];
                let length = call(from, &mut out).length as usize;
                assert_eq!(&out[..length], &to[..], "they differ on a move");
            }
        }
    }
    type Move = fn(&[u8], &mut [u8]) -> reference::MoveAnswer;
    for (version, sheets) in [(1, &first), (2, &second), (3, &third)] {
        let check = |call: fn(&[u8]) -> reference::CheckAnswer| {
            for sheet in sheets {
                black_box(call(black_box(sheet)));
            }
        };
        let move_all = |call: Move| {
            let mut out = [0; 712];
            for sheet in sheets {
                black_box(call(black_box(sheet), &mut out));
            }
        };
        let count = sheets.len();
        println!("check of the {count} accepted ones, of version {version}:");
        compare(count, || check(plain::check), || check(binding::check));
        if version == 3 {
            continue;
        }
        println!("move of them, from version {version}:");
        compare(
            count,
            || move_all(plain::move_sheet),
            || move_all(binding::move_sheet),
        );
    }
}

/// Print the best time of each side for one call, and their ratio.
fn compare<T>(calls: usize, plain: impl Fn() -> T, library: impl Fn() -> T) {
    let [plain, library] = best(calls, [&plain, &library]);
    println!(
        "  plain {plain:.1} ns, library {library:.1} ns, ratio {:.2}",
        library / plain
    );
}

/// The best time of each run for one call, in nanoseconds. The runs take turns.
fn best<T, const N: usize>(calls: usize, runs: [&dyn Fn() -> T; N]) -> [f64; N] {
    let mut best = [f64::MAX; N];
    for _ in 0..PASSES {
        for (best, run) in best.iter_mut().zip(runs) {
            let begin = Instant::now();
            black_box(run());
            *best = best.min(begin.elapsed().as_nanos() as f64 / calls as f64);
        }
    }
    best
}
