//! Times the proved checker against the simple one, docs/checker.rs, and against
//! plain Rust that is written for speed, on the same sheets in one run, all
//! built for release. Argument: seed.
//!
//! A line has the best time of each for one sheet, the ratios of these best
//! times, and in brackets the medians of the ratios of each pass.

use bench::{plain, simple, workload};
use inputs::{archive, in_version, sized_sheet, Rng};
use reference::CheckAnswer;
use std::hint::black_box;
use std::time::Instant;

const PASSES: usize = 15;
/// A pass of each side goes through at least so many sheets.
const IN_A_PASS: usize = 20_000;

fn main() {
    let seed = std::env::args().nth(1).map_or(1, |argument| {
        argument.parse().expect("the argument is a number: seed")
    });
    binding::assert_layout();
    let mut rng = Rng::new(seed);
    println!(
        "{:<34} {:>6} {:>5} {:>5}  {:>7} {:>7} {:>7}  {:>14} {:>14}",
        "ns a sheet",
        "sheets",
        "bytes",
        "acc.",
        "library",
        "simple",
        "plain",
        "library/simple",
        "library/plain"
    );
    line("archive, versions 1 to 3", &archive(seed, 100_000));
    for version in 1..=3 {
        let sheets = workload::sheets_of(&mut rng, version, 50_000);
        line(&format!("version {version}, mixed"), &sheets);
        let (accepted, refused): (Vec<_>, Vec<_>) = sheets
            .into_iter()
            .partition(|sheet| reference::check(sheet).refusal == 0);
        line(&format!("version {version}, the accepted"), &accepted);
        line(&format!("version {version}, the refused"), &refused);
    }
    for version in 1..=3 {
        for cores in [1, 8] {
            let name = format!("version {version}, 64 tasks on {cores}, accepted");
            line(&name, &sized(&mut rng, version, 64, cores, 2000));
        }
    }
    println!("growth, accepted sheets:");
    for version in 1..=3 {
        for (tasks, cores) in [
            (0, 0),
            (1, 1),
            (2, 1),
            (4, 1),
            (8, 1),
            (16, 1),
            (32, 1),
            (64, 1),
            (64, 2),
            (64, 4),
            (64, 8),
        ] {
            let name = format!("version {version}, {tasks} tasks on {cores}");
            line(&name, &sized(&mut rng, version, tasks, cores, 1000));
        }
    }
}

/// So many accepted sheets with these counts. The tasks stand in any order in
/// versions 1 and 3, and their cores in turn or not.
fn sized(rng: &mut Rng, version: u8, tasks: usize, cores: usize, count: usize) -> Vec<Vec<u8>> {
    let sheet = |_| {
        let first = sized_sheet(rng, tasks, cores);
        let sheet = in_version(rng, version, &first);
        assert_eq!(reference::check(&sheet).refusal, 0);
        sheet
    };
    (0..count).map(sheet).collect()
}

/// Look at the answers to the sheets, time them and print a line.
fn line(name: &str, sheets: &[Vec<u8>]) {
    let mut accepted = 0;
    for sheet in sheets {
        let answer = binding::check(sheet);
        assert_eq!(answer, plain::check(sheet), "they differ on {sheet:02x?}");
        assert_eq!(
            answer,
            as_library(simple::check(sheet)),
            "they differ on {sheet:02x?}"
        );
        accepted += (answer.refusal == 0) as usize;
    }
    let bytes: usize = sheets.iter().map(Vec::len).sum();
    let passes: Vec<[f64; 3]> = times(sheets);
    let best = |side: usize| {
        passes
            .iter()
            .map(|pass| pass[side])
            .fold(f64::MAX, f64::min)
    };
    let [library, simple, plain] = [0, 1, 2].map(best);
    let ratios = |side: usize| {
        let mut ratios: Vec<f64> = passes.iter().map(|pass| pass[0] / pass[side]).collect();
        ratios.sort_by(f64::total_cmp);
        format!("{:.2} ({:.2})", library / best(side), ratios[PASSES / 2])
    };
    println!(
        "{name:<34} {:>6} {:>5} {:>4}%  {library:>7.1} {simple:>7.1} {plain:>7.1}  {:>14} {:>14}",
        sheets.len(),
        bytes / sheets.len(),
        100 * accepted / sheets.len(),
        ratios(1),
        ratios(2)
    );
}

fn as_library(answer: simple::Answer) -> CheckAnswer {
    let mut same = CheckAnswer::default();
    match answer {
        simple::Answer::Accepted { tasks, cores } => (same.tasks, same.cores) = (tasks, cores),
        simple::Answer::Refused { number, place } => (same.refusal, same.place) = (number, place),
    }
    same
}

/// The nanoseconds for one sheet of each side in each pass. The sides take turns,
/// and each pass begins with another.
fn times(sheets: &[Vec<u8>]) -> Vec<[f64; 3]> {
    let sides: [fn(&[Vec<u8>]); 3] = [library_side, simple_side, plain_side];
    let repeat = IN_A_PASS.div_ceil(sheets.len());
    let pass = |first: usize| {
        let mut times = [0.0; 3];
        for turn in 0..3 {
            let side = (first + turn) % 3;
            let begin = Instant::now();
            (0..repeat).for_each(|_| sides[side](sheets));
            let calls = repeat * sheets.len();
            times[side] = begin.elapsed().as_nanos() as f64 / calls as f64;
        }
        times
    };
    (0..PASSES).map(pass).collect()
}

fn library_side(sheets: &[Vec<u8>]) {
    for sheet in sheets {
        black_box(binding::check(black_box(sheet)));
    }
}

#[inline(never)]
fn simple_check(sheet: &[u8]) -> simple::Answer {
    simple::check(sheet)
}

fn simple_side(sheets: &[Vec<u8>]) {
    for sheet in sheets {
        black_box(simple_check(black_box(sheet)));
    }
}

fn plain_side(sheets: &[Vec<u8>]) {
    for sheet in sheets {
        black_box(plain::check(black_box(sheet)));
    }
}
