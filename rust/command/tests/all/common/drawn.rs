//! What a picture of a log must show, told from the log alone, and a picture that is drawn with letters.

use std::collections::{BTreeMap, BTreeSet};

use super::running::{Answer, Call, CoreLog, LogTask};
use super::svg::{read, shown, Element, Shown, Spot};
use super::Ran;

/// A core as its group names it.
fn core_of(log: &CoreLog) -> String {
    log.core.map_or("bench".to_owned(), |core| core.to_string())
}

/// A row's label: the task's number, and its name if it has one.
fn label_of(task: &LogTask) -> String {
    match &task.name {
        Some(name) => format!("{} {name}", task.number),
        None => task.number.to_string(),
    }
}

/// What a picture of these logs must show: each tick and each mark, by core, row and place.
pub fn expected(logs: &[CoreLog]) -> Shown {
    let mut all = Shown::default();
    for log in logs {
        for task in &log.tasks {
            jobs_of(log, task, &mut all);
        }
        calls_of(log, &mut all);
    }
    for list in all.ticks.values_mut().chain(all.marks.values_mut()) {
        list.sort();
    }
    all
}

/// A job: the moments of its release and its end, or of the end of the log, and whether it has had its budget.
struct Job {
    released: u64,
    ended: u64,
    open: bool,
    served: bool,
}

/// The ticks that a task ran, its releases, and how its jobs waited.
fn jobs_of(log: &CoreLog, task: &LogTask, all: &mut Shown) {
    let (core, label) = (core_of(log), label_of(task));
    let mut add =
        |map: fn(&mut Shown) -> &mut BTreeMap<String, Vec<Spot>>, class: &str, at: u64| {
            let list = map(all).entry(class.to_owned()).or_default();
            list.push((core.clone(), label.clone(), at));
        };
    let ran = ticks_of(log, task.number);
    ran.iter()
        .for_each(|&tick| add(|all| &mut all.ticks, "run", tick));
    for job in jobs(log, task) {
        let due = job.released + task.within;
        add(|all| &mut all.marks, "release", job.released);
        if due <= ticks(log) {
            add(|all| &mut all.marks, "due", due);
        }
        // late, with no tick behind it
        if job.ended == due && !job.served {
            add(|all| &mut all.marks, "late", due);
        }
        let waits = |tick: &u64| *tick > due || !ran.contains(tick);
        for tick in (job.released + 1..=job.ended).filter(waits) {
            let class = if tick > due { "late" } else { "pending" };
            add(|all| &mut all.ticks, class, tick);
        }
    }
}

/// The idle ticks, the jobs that were finished, and the calls that were refused.
fn calls_of(log: &CoreLog, all: &mut Shown) {
    let labels: BTreeMap<u8, String> = log
        .tasks
        .iter()
        .map(|task| (task.number, label_of(task)))
        .collect();
    let mut now = 0;
    for (call, answer) in &log.calls {
        now += u64::from(*call == Call::Tick);
        let (class, label) = match (call, answer) {
            (Call::Tick, Answer::Idle) => {
                let ticks = all.ticks.entry("idle".to_owned()).or_default();
                ticks.push((core_of(log), "idle".to_owned(), now));
                continue;
            }
            (Call::Finish(task), Answer::Accepted) => ("finish".to_owned(), &labels[task]),
            (Call::Release(task) | Call::Finish(task), Answer::Refused(word, _)) => {
                match labels.get(task) {
                    Some(label) => (format!("refused {word}"), label),
                    None => (
                        format!("refused {word} of {task}"),
                        &"other calls".to_owned(),
                    ),
                }
            }
            _ => continue,
        };
        let marks = all.marks.entry(class).or_default();
        marks.push((core_of(log), label.clone(), now));
    }
}

fn ticks(log: &CoreLog) -> u64 {
    let ticks = log.calls.iter().filter(|(call, _)| *call == Call::Tick);
    ticks.count() as u64
}

/// The ticks that a task ran, counted from 1.
fn ticks_of(log: &CoreLog, task: u8) -> BTreeSet<u64> {
    let ticks = log.calls.iter().filter(|(call, _)| *call == Call::Tick);
    let ran = ticks
        .zip(1..)
        .filter(|((_, answer), _)| *answer == Answer::Ran(task));
    ran.map(|(_, tick)| tick).collect()
}

/// The jobs of a task, each until it has had its budget or is finished, or to the end.
fn jobs(log: &CoreLog, task: &LogTask) -> Vec<Job> {
    let mut jobs: Vec<Job> = Vec::new();
    let (mut now, mut had) = (0, 0);
    for &(call, answer) in &log.calls {
        now += u64::from(call == Call::Tick);
        had += u64::from(answer == Answer::Ran(task.number));
        let served = had == task.budget;
        let finished = (call, answer) == (Call::Finish(task.number), Answer::Accepted);
        if let Some(job) = jobs.last_mut().filter(|job| job.open) {
            if finished || served {
                (job.ended, job.open, job.served) = (now, false, served);
            }
        }
        if (call, answer) == (Call::Release(task.number), Answer::Accepted) {
            had = 0;
            jobs.push(Job {
                released: now,
                ended: ticks(log),
                open: true,
                served: false,
            });
        }
    }
    jobs
}

/// The picture shows all of the logs and nothing else, by its geometry.
#[track_caller]
pub fn draws(picture: &Ran, logs: &[CoreLog]) {
    let root = read(&picture.out);
    let (given, wanted) = (shown(&root), expected(logs));
    for (class, list) in wanted.ticks.iter().chain(&wanted.marks) {
        let ticks = given.ticks.get(class).into_iter();
        let found = ticks
            .chain(given.marks.get(class))
            .any(|given| given == list);
        assert!(found, "{class}, which should be {list:?}: {picture}");
    }
    assert_eq!(given, wanted, "{picture}");
    let cores: Vec<&Element> = root.all("core").collect();
    let names = cores
        .iter()
        .map(|core| core.attribute("data-core").to_owned());
    assert!(names.eq(logs.iter().map(core_of)), "{picture}");
    for (core, log) in cores.into_iter().zip(logs) {
        core.all("band")
            .for_each(|band| rows_by_priority(band, log));
    }
}

/// The rows of a band are the tasks by priority, as the log has them, and the idle ticks below.
fn rows_by_priority(band: &Element, log: &CoreLog) {
    let labels: Vec<&str> = band.all("label").map(|label| label.text.as_str()).collect();
    let number = |label: &&str| label.split(' ').next()?.parse::<u8>().ok();
    let tasks = labels.iter().filter_map(number);
    assert!(
        tasks.eq(log.tasks.iter().map(|task| task.number)),
        "{labels:?}"
    );
    assert_eq!(labels.last(), Some(&"idle"));
}

/// The letters show the same ticks, in lines of at most this width.
#[track_caller]
pub fn letters(ran: &Ran, logs: &[CoreLog], width: usize) {
    let longest = ran.out.lines().map(|line| line.chars().count()).max();
    assert!(longest <= Some(width), "{longest:?} letters: {ran}");
    let mut given = read_letters(ran);
    given.values_mut().for_each(|list| list.sort());
    let mut wanted = expected(logs).ticks;
    let runs: BTreeSet<Spot> = wanted
        .remove("run")
        .unwrap_or_default()
        .into_iter()
        .collect();
    let late: BTreeSet<Spot> = wanted
        .remove("late")
        .unwrap_or_default()
        .into_iter()
        .collect();
    wanted.insert("run".to_owned(), runs.difference(&late).cloned().collect());
    wanted.insert("late".to_owned(), late.difference(&runs).cloned().collect());
    let both = late.intersection(&runs).cloned().collect();
    wanted.insert("run, late".to_owned(), both);
    wanted.retain(|_, list| !list.is_empty());
    assert_eq!(given, wanted, "{ran}");
}

/// The ticks of a picture with letters: a heading for each core, and for each band an axis, whose first number is how many ticks come
/// before its column, and rows.
fn read_letters(ran: &Ran) -> BTreeMap<String, Vec<Spot>> {
    let mut given: BTreeMap<String, Vec<Spot>> = BTreeMap::new();
    let (mut core, mut column, mut before) = (String::new(), 0, 0);
    let lines = ran.out.lines();
    for line in lines.take_while(|line| !line.starts_with("ticks ")) {
        let words: Vec<&str> = line.split_whitespace().collect();
        let axis = words.iter().all(|word| word.parse::<u64>().is_ok());
        if line.starts_with("core ") || line.starts_with("bench") {
            let word = words[usize::from(words[0] == "core")];
            core = word.trim_end_matches(':').to_owned();
        } else if line.starts_with(' ') && axis && !words.is_empty() {
            column = line.chars().take_while(|c| *c == ' ').count();
            before = words[0].parse().expect("a number");
        } else if line.starts_with(|c: char| c.is_ascii_digit()) || line.starts_with("idle") {
            let label: String = line.chars().take(column).collect();
            for (tick, letter) in (before + 1..).zip(line.chars().skip(column)) {
                if let Some(class) = class_of(letter) {
                    let spot = (core.clone(), label.trim_end().to_owned(), tick);
                    given.entry(class.to_owned()).or_default().push(spot);
                }
            }
        }
    }
    given
}

fn class_of(letter: char) -> Option<&'static str> {
    Some(match letter {
        '#' => "run",
        '%' => "run, late",
        '-' => "pending",
        '!' => "late",
        '=' => "idle",
        '.' => return None,
        other => panic!("`{other}` is no letter of a tick"),
    })
}
