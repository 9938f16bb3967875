//! Logs for tests: random runs of planned sheets and of job lists on the bench, and logs that no library gives.

use std::collections::{BTreeMap, BTreeSet};

use homvaits::{plan, Core, Job, Refusal, Sheet};

use crate::judge;
use crate::log::{Answer, Call, Entry, Log, Origin, Task};
pub use crate::rng::Rng;

impl Rng {
    /// 1 to 12 jobs of which each needs about so many hundredths of a core.
    fn jobs_of_share(&mut self, share: u64) -> Vec<Job> {
        let longest = [8, 40, 300][self.range(0, 2) as usize];
        let mut job = || {
            let period = self.range(1, longest);
            let most = (period * share).div_ceil(100).clamp(1, period);
            Job {
                period: period as u16,
                budget: self.range(1, most) as u16,
            }
        };
        let count = 1 + job().period % 12;
        (0..count).map(|_| job()).collect()
    }
}

/// Runs of all cores of a planned sheet, some with strokes.
pub fn planned(rng: &mut Rng, ticks: usize) -> Vec<Log> {
    let jobs = rng.jobs_of_share(20);
    // one job alone always passes
    let sheet = plan(&jobs, 8, 0)
        .or_else(|_| plan(&jobs[..1], 8, 0))
        .unwrap();
    let sheet = match Sheet::check(&rng.stroked(sheet.as_bytes().to_vec())) {
        Ok(stroked) if rng.once_in(2) => stroked,
        _ => sheet,
    };
    let mut log = |core: u8| {
        let mut running = Core::start(&sheet, core).unwrap();
        let within = |number| {
            sheet
                .tasks()
                .find(|task| task.number == number)
                .unwrap()
                .within
        };
        let tasks = running.tasks().iter();
        Log {
            origin: Origin::Core(core),
            tasks: tasks.map(|task| named(task, within(task.number))).collect(),
            entries: drive(&mut running, rng, ticks),
        }
    };
    sheet.cores().map(|core| log(core.number)).collect()
}

/// A run of a job list on the bench, where jobs may be late.
pub fn bench(rng: &mut Rng, ticks: usize) -> Log {
    let jobs = rng.jobs_of_share(60);
    let mut running = Core::start_list(&jobs).unwrap();
    let tasks = running.tasks().iter();
    Log {
        origin: Origin::Bench,
        tasks: tasks.map(|task| named(task, task.period)).collect(),
        entries: drive(&mut running, rng, ticks),
    }
}

fn named(task: &homvaits::Task, within: u16) -> Task {
    let names = [
        "key",
        "<a> & \"b\"",
        "接收机 'x'",
        "a name of forty letters, which is as long",
    ];
    let name = names.get(usize::from(task.number) % 6);
    Task {
        number: task.number,
        period: task.period,
        budget: task.budget,
        within,
        stroke: task.stroke,
        name: name.map(|name| (*name).to_owned()),
    }
}

/// Releases and finishes at random, some of them refused, and so many ticks; then a call or two more.
fn drive(core: &mut Core, rng: &mut Rng, ticks: usize) -> Vec<Entry> {
    let mut entries = Vec::new();
    for _ in 0..ticks {
        calls(core, rng, &mut entries);
        entries.push(Entry {
            call: Call::Tick,
            answer: Answer::Ticked(core.tick().unwrap()),
        });
    }
    calls(core, rng, &mut entries);
    entries
}

fn calls(core: &mut Core, rng: &mut Rng, entries: &mut Vec<Entry>) {
    let numbers: Vec<u8> = core.tasks().iter().map(|task| task.number).collect();
    let unlisted = rng.range(0, 63) as u8;
    let unlisted = Some(unlisted).filter(|_| rng.once_in(30));
    for number in numbers.into_iter().chain(unlisted) {
        let task = core.tasks().iter().find(|task| task.number == number);
        let task = task.copied();
        let ready = task.is_some_and(|task| task.age == task.period);
        let pending = task.is_some_and(|task| task.is_pending());
        let mut call = |call, result: Result<(), Refusal>| {
            let answer = match result {
                Ok(()) => Answer::Accepted,
                Err(refusal) => Answer::Refused(refusal.number(), refusal.place.number()),
            };
            entries.push(Entry { call, answer });
        };
        if (pending && rng.once_in(15)) || rng.once_in(80) {
            call(Call::Finish(number), core.finish(number));
        }
        if (ready && !rng.once_in(3)) || rng.once_in(40) || task.is_none() {
            call(Call::Release(number), core.release(number));
        }
        if rng.once_in(100) {
            call(Call::Finish(number), core.finish(number));
        }
    }
}

/// Lines of a log, with `Entry`s made from them.
fn entries(text: &str) -> Vec<Entry> {
    let number = |word: Option<&str>| word.and_then(|word| word.parse().ok()).unwrap_or(0);
    let entry = |line: &str| {
        let mut words = line.split(' ');
        let call = match words.next() {
            Some("release") => Call::Release(number(words.next()) as u8),
            Some("finish") => Call::Finish(number(words.next()) as u8),
            _ => Call::Tick,
        };
        let answer = match words.next() {
            Some("accepted") => Answer::Accepted,
            Some("idle") => Answer::Ticked(None),
            Some("refused") => Answer::Refused(number(words.next()) as u8, number(words.next())),
            task => Answer::Ticked(Some(number(task) as u8)),
        };
        Entry { call, answer }
    };
    text.split(", ").map(entry).collect()
}

fn task(number: u8, budget: u16, within: u16) -> Task {
    Task {
        number,
        period: 4,
        budget,
        within,
        stroke: 1,
        name: None,
    }
}

/// Logs that no library gives: releases before the last job has ended, ticks of tasks that the core does not have, answers that no
/// such call has.
pub fn made() -> Vec<Log> {
    let texts = [
        "release 0 accepted, release 0 accepted, tick 0, release 0 accepted, tick idle, tick 0, finish 0 accepted, tick 0",
        "tick 9, tick 9, tick 63, tick 255, tick 0, release 9 accepted, finish 9 accepted, tick refused 21 0, tick idle",
        "release 1 accepted, tick idle, tick idle, release 1 refused 19 1, finish 1 accepted, release 1 accepted, finish 1 accepted",
        "finish 0 accepted, tick accepted, release 0 idle, release 1 1, tick 1, finish 7 refused 255 65535, release 1 accepted",
        "release 0 refused 18 0, finish 0 refused 20 0, release 0 accepted, finish 0 accepted, release 7 refused 17 0",
        "release 2 accepted, tick 2, tick 2, release 2 accepted, tick idle, release 2 accepted",
    ];
    let tasks = vec![
        task(1, 2, 2),
        task(0, 3, 4),
        task(2, 65_535, 0),
        task(0, 0, 1),
    ];
    let log = |text: &&str| Log {
        origin: Origin::Core(7),
        tasks: tasks.clone(),
        entries: entries(text),
    };
    let mut logs: Vec<Log> = texts.iter().map(log).collect();
    logs.push(Log {
        origin: Origin::Core(0),
        tasks: Vec::new(),
        entries: entries("release 0 refused 17 0, tick idle"),
    });
    logs.push(Log {
        origin: Origin::Bench,
        tasks: Vec::new(),
        entries: Vec::new(),
    });
    logs
}

/// What a picture must show of a log. Ticks are counted from 1.
#[derive(Debug, Default, PartialEq, Eq)]
pub struct Truth {
    pub runs: BTreeSet<(u8, usize)>,
    pub idle: BTreeSet<usize>,
    pub pending: BTreeSet<(u8, usize)>,
    pub late: BTreeSet<(u8, usize)>,
    /// Kind, number, moment and refusal, and how often there is such a one.
    pub marks: BTreeMap<(String, Option<u8>, usize, u8), usize>,
}

impl Truth {
    pub fn of(log: &Log) -> Truth {
        let mut truth = Truth::default();
        let mut moment = 0;
        for entry in &log.entries {
            moment = truth.take(entry, moment);
        }
        let jobs = judge::jobs(log);
        jobs.iter().for_each(|job| truth.job(log, job, moment));
        truth.pending = &truth.pending - &truth.late;
        truth.pending = &truth.pending - &truth.runs;
        truth
    }

    pub fn mark(&mut self, kind: &str, number: Option<u8>, moment: usize, refusal: u8) {
        let mark = (kind.to_owned(), number, moment, refusal);
        *self.marks.entry(mark).or_default() += 1;
    }

    fn take(&mut self, entry: &Entry, moment: usize) -> usize {
        let number = match entry.call {
            Call::Release(number) | Call::Finish(number) => Some(number),
            Call::Tick => None,
        };
        match (entry.call, entry.answer) {
            (Call::Tick, Answer::Ticked(served)) => {
                match served {
                    Some(number) => self.runs.insert((number, moment + 1)),
                    None => self.idle.insert(moment + 1),
                };
                return moment + 1;
            }
            (_, Answer::Refused(refusal, _)) => self.mark("refused", number, moment, refusal),
            (Call::Release(_), Answer::Accepted) => self.mark("release", number, moment, 0),
            (Call::Finish(_), Answer::Accepted) => self.mark("finish", number, moment, 0),
            _ => {}
        }
        moment
    }

    fn job(&mut self, log: &Log, job: &judge::Job, ticks: usize) {
        let number = log.tasks[job.row].number;
        let end = job.ended.unwrap_or(ticks);
        if job.due <= ticks {
            self.mark("due", Some(number), job.due, 0);
        }
        let of = |tick| (number, tick);
        self.pending.extend((job.released + 1..=end).map(of));
        if job.late {
            self.late.extend((job.due + 1..=end).map(of));
            if job.due == end {
                self.mark("late", Some(number), end, 0);
            }
        }
    }
}

/// Pictures to try: the logs of one each.
pub fn pictures() -> Vec<Vec<Log>> {
    let mut rng = Rng(13);
    let mut pictures = vec![Vec::new()];
    for ticks in [0, 1, 39, 40, 41, 239, 240, 241, 2000] {
        let few = if ticks < 1000 { 3 } else { 1 };
        for _ in 0..few {
            pictures.push(planned(&mut rng, ticks));
            pictures.push(vec![bench(&mut rng, ticks)]);
        }
    }
    // of different lengths
    pictures.push(vec![
        bench(&mut rng, 300),
        bench(&mut rng, 0),
        bench(&mut rng, 7),
    ]);
    pictures.extend(made().into_iter().map(|log| vec![log]));
    pictures.push(made());
    pictures
}
