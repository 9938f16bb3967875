//! A hundred thousand sheets of all versions: the library, the simple checker of
//! docs/ and the reference answer alike on each. And the sheets are such that
//! this says something: every refusal, every count, fields at the bound of each
//! rule and one past it, several rules broken at once.

#[allow(dead_code)]
#[path = "../../../docs/checker.rs"]
mod checker;

use checker::Answer;
use reference::{CheckAnswer, Grouping, Sheet, TaskRecord};
use std::collections::BTreeMap;
use std::sync::LazyLock;

const SEED: u64 = 8;
const COUNT: usize = 100_000;

/// A sheet, the version in which it was made, and the reference's answer.
struct Entry {
    version: u8,
    bytes: Vec<u8>,
    answer: CheckAnswer,
}

static ARCHIVE: LazyLock<Vec<Entry>> = LazyLock::new(|| {
    let sheets = inputs::archive(SEED, COUNT).into_iter().enumerate();
    sheets
        .map(|(i, bytes)| {
            let answer = reference::check(&bytes);
            // behind rule 3 the bytes say the version, which damage may have changed
            let version = match answer.refusal {
                1..=3 => (i % 3) as u8 + 1,
                _ => bytes[3],
            };
            Entry {
                version,
                bytes,
                answer,
            }
        })
        .collect()
});

#[test]
fn all_answer_alike() {
    binding::assert_layout();
    assert_eq!(ARCHIVE.len(), COUNT);
    for entry in ARCHIVE.iter() {
        let expected = entry.answer;
        assert_eq!(
            binding::check(&entry.bytes),
            expected,
            "the library on {:02x?}",
            entry.bytes
        );
        let simple = match checker::check(&entry.bytes) {
            Answer::Accepted { tasks, cores } => CheckAnswer {
                tasks,
                cores,
                ..CheckAnswer::default()
            },
            Answer::Refused { number, place } => CheckAnswer {
                refusal: number,
                place,
                ..CheckAnswer::default()
            },
        };
        assert_eq!(simple, expected, "docs/checker.rs on {:02x?}", entry.bytes);
    }
}

/// The refusals that a version can get, in the order of the rules (docs/SHEET.md,
/// section 4).
fn rules(version: u8) -> Vec<u8> {
    let own: &[u8] = match version {
        1 => &[9],
        2 => &[23],
        _ => &[25, 9],
    };
    [&[1, 2, 3, 4, 5, 6, 7, 8], own, &[10, 11, 12, 13, 14]].concat()
}

fn of_version(version: u8) -> impl Iterator<Item = &'static Entry> {
    ARCHIVE.iter().filter(move |entry| entry.version == version)
}

fn accepted(version: u8) -> impl Iterator<Item = &'static Entry> {
    of_version(version).filter(|entry| entry.answer.refusal == 0)
}

#[test]
fn every_refusal_and_no_other() {
    for version in 1..=3 {
        let mut seen = BTreeMap::new();
        for entry in of_version(version) {
            *seen.entry(entry.answer.refusal).or_insert(0) += 1;
        }
        println!("version {version}: {seen:?}");
        assert!(seen.remove(&0) > Some(COUNT / 10), "version {version}");
        let mut expected = rules(version);
        expected.sort_unstable();
        assert!(seen.keys().eq(&expected), "version {version}: {seen:?}");
        assert!(seen.values().all(|&count| count >= COUNT / 500), "{seen:?}");
    }
}

#[test]
fn every_count() {
    for version in 1..=3 {
        let (mut tasks, mut cores, mut longest) = ([0; 65], [0; 9], [0; 9]);
        for entry in accepted(version) {
            let (n, c) = (entry.answer.tasks as usize, entry.answer.cores as usize);
            tasks[n] += 1;
            cores[c] += 1;
            longest[c] += (n == 64) as usize;
        }
        println!("version {version}: 64 tasks on 0 to 8 cores: {longest:?}");
        assert!(tasks.iter().chain(&cores).all(|&count| count >= 20));
        assert!(longest[1..].iter().all(|&count| count >= 300));
    }
}

/// The figures of a sheet of the right length, with the cores of the positions;
/// none where the counts of version 2 do not add up.
fn figures(version: u8, bytes: &[u8]) -> Option<Sheet> {
    let (n, c) = (bytes[5] as usize, bytes[6] as usize);
    let mut sheet = Sheet::read(bytes, n, c);
    if version == 2 {
        let cores = Grouping::read(bytes, n, c).cores();
        if cores.len() != n {
            return None;
        }
        for (task, core) in sheet.tasks.iter_mut().zip(cores) {
            task.core = core;
        }
    }
    Some(sheet)
}

#[test]
fn bounds_and_one_past() {
    for version in 1..=3 {
        let mut seen: BTreeMap<&str, usize> = BTreeMap::new();
        for entry in of_version(version) {
            for mark in marks(entry) {
                *seen.entry(mark).or_default() += 1;
            }
        }
        println!("version {version}: {seen:?}");
        let own: &[&str] = match version {
            1 => &OWN[0],
            2 => &OWN[1],
            _ => &OWN[2],
        };
        for mark in ALL.iter().chain(own) {
            let count = seen.get(mark).copied().unwrap_or(0);
            assert!(count >= 50, "version {version}: {mark}: {count}");
        }
        assert!(seen["load of one"] >= COUNT / 10);
        assert!(seen["load of one with 64 tasks"] >= COUNT / 20);
    }
}

const ALL: [&str; 34] = [
    "no bytes",
    "7 bytes",
    "one letter",
    "version 0",
    "version 4",
    "version + 256",
    "65 tasks",
    "9 cores",
    "a byte too few",
    "a byte too many",
    "spare in the header",
    "second spare in a core",
    "period 0",
    "period 60,001",
    "budget 0",
    "budget above period",
    "factor 0",
    "factor 120,001",
    "pivot 0",
    "pivot 60,001",
    "divisor 0",
    "divisor 120,001",
    "stretch by at most a tick",
    "chain by one",
    "load by at most a tick",
    "shortest period",
    "longest period",
    "whole period as budget",
    "largest factor",
    "longest pivot",
    "largest divisor",
    "no stretch left",
    "load of one",
    "load of one with 64 tasks",
];

const OWN: [&[&str]; 3] = [
    &["core c", "spare in a task", "first spare in a core"],
    &[
        "spare in a task",
        "number n",
        "a number twice",
        "one task too few",
        "one task too many",
        "two exchanged",
        "a tie exchanged",
    ],
    &[
        "core c",
        "first spare in a core",
        "stroke 0",
        "stroke above budget",
        "stroke by one tick",
        "whole budget as stroke",
        "no room left for a stroke",
    ],
];

/// What a sheet shows of the bounds of the rule that refused it, or of all if it
/// is accepted.
fn marks(entry: &Entry) -> Vec<&'static str> {
    let Entry {
        version,
        bytes,
        answer,
    } = entry;
    let mut marks = Vec::new();
    let mut mark = |holds: bool, name| marks.extend(holds.then_some(name));
    let place = answer.place as usize;
    if answer.refusal <= 5 && answer.refusal > 0 {
        match answer.refusal {
            1 => {
                mark(bytes.is_empty(), "no bytes");
                mark(bytes.len() == 7, "7 bytes");
            }
            2 => {
                let wrong = (0..3).filter(|&i| bytes[i] != b"TSH"[i]).count();
                mark(wrong == 1, "one letter");
            }
            3 => {
                let given = reference::version(bytes);
                mark(given == 0, "version 0");
                mark(given == 4, "version 4");
                mark(given == 256 + *version as u64, "version + 256");
            }
            4 => {
                let right = bytes.len() == 8 + 10 * bytes[5] as usize + 8 * bytes[6] as usize;
                mark(right && bytes[5] == 65 && bytes[6] <= 8, "65 tasks");
                mark(right && bytes[5] <= 64 && bytes[6] == 9, "9 cores");
            }
            _ => {
                let right = 8 + 10 * bytes[5] as usize + 8 * bytes[6] as usize;
                mark(bytes.len() + 1 == right, "a byte too few");
                mark(bytes.len() == right + 1, "a byte too many");
            }
        }
        return marks;
    }
    let (n, c) = (bytes[5] as usize, bytes[6] as usize);
    let Some(sheet) = figures(*version, bytes) else {
        let sum: usize = Grouping::read(bytes, n, c).counts.iter().sum();
        mark(answer.refusal == 23 && sum + 1 == n, "one task too few");
        mark(answer.refusal == 23 && sum == n + 1, "one task too many");
        return marks;
    };
    let task = |place: usize| sheet.tasks[place];
    let core = |place: usize| sheet.cores[place];
    match answer.refusal {
        6 => {
            mark(place == 7, "spare in the header");
            mark((8..8 + 10 * n).contains(&place), "spare in a task");
            let in_core = place.checked_sub(8 + 10 * n).map(|at| at % 8);
            mark(in_core == Some(2), "first spare in a core");
            mark(in_core == Some(3), "second spare in a core");
        }
        7 => {
            mark(task(place).period == 0, "period 0");
            mark(task(place).period == 60_001, "period 60,001");
        }
        8 => {
            let TaskRecord { period, budget, .. } = task(place);
            mark(budget == 0, "budget 0");
            mark(budget == period + 1, "budget above period");
        }
        25 => {
            let TaskRecord { budget, stroke, .. } = task(place);
            mark(stroke == 0, "stroke 0");
            mark(stroke == budget + 1, "stroke above budget");
        }
        23 => {
            let numbers = Grouping::read(bytes, n, c).numbers;
            let others = (0..n).filter(|number| !numbers.contains(number)).count();
            mark(numbers.contains(&n), "number n");
            let in_range = numbers.iter().all(|&number| number < n);
            mark(in_range && others == 1, "a number twice");
            let pairs = (1..n).filter(|&i| task(i - 1).core == task(i).core);
            let period = |i: usize| task(i).period;
            let wrong = pairs
                .filter(|&i| (period(i - 1), numbers[i - 1]) > (period(i), numbers[i]))
                .collect::<Vec<_>>();
            if let (0, [i]) = (others, &wrong[..]) {
                mark(period(i - 1) > period(*i), "two exchanged");
                mark(period(i - 1) == period(*i), "a tie exchanged");
            }
        }
        9 => mark(task(place).core == c, "core c"),
        10 => {}
        11 if place < 64 => {
            mark(task(place).factor == 0, "factor 0");
            mark(task(place).factor == 120_001, "factor 120,001");
        }
        11 => {
            mark(core(place - 64).pivot == 0, "pivot 0");
            mark(core(place - 64).pivot == 60_001, "pivot 60,001");
            mark(core(place - 64).divisor == 0, "divisor 0");
            mark(core(place - 64).divisor == 120_001, "divisor 120,001");
        }
        12 => {
            let (task, core) = (task(place), core(task(place).core));
            let longer = (task.period + 1) * core.divisor;
            mark(
                core.pivot * task.factor <= longer,
                "stretch by at most a tick",
            );
        }
        13 => {
            let order = sheet.by_priority(task(place).core);
            let i = order.iter().position(|&i| i == place).expect("it is there");
            let (before, this) = (task(order[i - 1]).factor, task(place).factor);
            mark((this + 1).is_multiple_of(before), "chain by one");
        }
        14 => {
            let number = place - 64;
            let mut less = sheet.clone();
            let last = *less.by_priority(number).last().expect("it has a task");
            less.tasks[last].budget -= 1;
            mark(less.has_room(number), "load by at most a tick");
            let mut less = sheet.clone();
            for task in &mut less.tasks {
                task.stroke = task.stroke.max(2) - 1;
            }
            mark(less.has_room(number), "stroke by one tick");
        }
        _ => {
            for task in &sheet.tasks {
                let core = core(task.core);
                mark(task.period == 1, "shortest period");
                mark(task.period == 60_000, "longest period");
                mark(task.budget == task.period, "whole period as budget");
                mark(task.factor == 120_000, "largest factor");
                let (accelerated, whole) = (core.pivot * task.factor, task.period * core.divisor);
                mark(accelerated == whole, "no stretch left");
                let strokes = task.stroke > 1;
                mark(
                    strokes && task.stroke == task.budget,
                    "whole budget as stroke",
                );
            }
            let one = reference::Fraction::whole(1);
            let mut longer = sheet.clone();
            longer.tasks.iter_mut().for_each(|task| task.stroke += 1);
            for (number, core) in sheet.cores.iter().enumerate() {
                mark(core.pivot == 60_000, "longest pivot");
                mark(core.divisor == 120_000, "largest divisor");
                let full = sheet.load(number) == one;
                mark(full, "load of one");
                mark(full && n == 64, "load of one with 64 tasks");
                let strokes = sheet
                    .by_priority(number)
                    .iter()
                    .any(|&i| sheet.blocking(i) > 0);
                mark(
                    strokes && !longer.has_room(number),
                    "no room left for a stroke",
                );
            }
        }
    }
    marks
}

#[test]
fn rules_behind_the_first() {
    for version in 1..=3 {
        let order = rules(version);
        let place = |number: u8| order.iter().position(|&rule| rule == number);
        let mut both: BTreeMap<u8, usize> = BTreeMap::new();
        for entry in of_version(version).filter(|entry| entry.answer.refusal > 1) {
            let first = entry.answer.refusal;
            let broken = broken(version, &entry.bytes);
            if broken.into_iter().any(|rule| place(rule) > place(first)) {
                *both.entry(first).or_default() += 1;
            }
        }
        println!("version {version}: {both:?}");
        // behind 1 and 5 not every field is there; none is behind 14
        for first in order.into_iter().filter(|rule| ![1, 5, 14].contains(rule)) {
            let count = both.get(&first).copied().unwrap_or(0);
            assert!(count >= 5, "version {version}: {first}: {count}");
        }
    }
}

/// The rules that at least 8 bytes break, each looked at by itself, where its
/// fields are there. Rules 2 and 6 are left out.
fn broken(version: u8, bytes: &[u8]) -> Vec<u8> {
    let mut rules = Vec::new();
    let mut rule = |broken: bool, number: u8| rules.extend(broken.then_some(number));
    let (n, c) = (bytes[5] as usize, bytes[6] as usize);
    let right = bytes.len() == 8 + 10 * n + 8 * c;
    rule(!(1..=3).contains(&reference::version(bytes)), 3);
    rule(n > 64 || c > 8, 4);
    rule(!right, 5);
    if !right {
        return rules;
    }
    let figures = figures(version, bytes);
    rule(figures.is_none(), 23);
    let sheet = figures.unwrap_or_else(|| Sheet::read(bytes, n, c));
    let any_task = |broken: &dyn Fn(&TaskRecord) -> bool| sheet.tasks.iter().any(broken);
    rule(any_task(&|task| !(1..=60_000).contains(&task.period)), 7);
    rule(
        any_task(&|task| !(1..=task.period).contains(&task.budget)),
        8,
    );
    let stroke = any_task(&|task| !(1..=task.budget).contains(&task.stroke));
    rule(stroke, 25);
    rule(any_task(&|task| !(1..=120_000).contains(&task.factor)), 11);
    let core_missing = any_task(&|task| task.core >= c);
    rule(core_missing, 9);
    if core_missing {
        return rules;
    }
    rule(
        any_task(&|task| {
            let core = sheet.cores[task.core];
            core.pivot * task.factor > task.period * core.divisor
        }),
        12,
    );
    for core in 0..c {
        let order = sheet.by_priority(core);
        rule(order.is_empty(), 10);
        let factor = |i: usize| sheet.tasks[i].factor;
        if order.iter().all(|&i| factor(i) > 0) {
            let links = |pair: &[usize]| factor(pair[1]).is_multiple_of(factor(pair[0]));
            let chain = order.windows(2).all(links);
            rule(!chain, 13);
            rule(chain && !stroke && !sheet.has_room(core), 14);
        }
    }
    rules
}
