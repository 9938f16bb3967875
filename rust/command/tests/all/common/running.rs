//! Logs as they are printed, the dispatcher of sections 6 and 14 of docs/SHEET.md, the on-time rule of section 7, and unbroken strokes.

use std::collections::BTreeMap;

#[derive(Clone, Copy, Debug, PartialEq, Eq)]
pub enum Call {
    Release(u8),
    Finish(u8),
    Tick,
}

#[derive(Clone, Copy, Debug, PartialEq, Eq)]
pub enum Answer {
    Accepted,
    Refused(u8, u16),
    Ran(u8),
    Idle,
}

/// A task as a log declares it.
#[derive(Clone, Debug, PartialEq, Eq)]
pub struct LogTask {
    pub number: u8,
    pub period: u64,
    pub budget: u64,
    pub within: u64,
    /// The stroke length, 1 where the line does not tell it.
    pub stroke: u64,
    pub name: Option<String>,
}

/// What a log says of a core; of the bench there is no number.
#[derive(Clone, Debug, Default, PartialEq, Eq)]
pub struct CoreLog {
    pub core: Option<u8>,
    pub tasks: Vec<LogTask>,
    pub calls: Vec<(Call, Answer)>,
}

/// Reads a log that the command printed; every line of it must be known.
pub fn read_log(text: &str) -> Vec<CoreLog> {
    let mut lines = text.lines();
    assert_eq!(lines.next(), Some("homvaits log 1"), "the first line");
    let mut cores: Vec<CoreLog> = Vec::new();
    for line in lines.filter(|line| !line.starts_with('#')) {
        let words: Vec<&str> = line.split(' ').collect();
        match words[0] {
            "core" => cores.push(CoreLog {
                core: Some(number(words[1], line)),
                ..CoreLog::default()
            }),
            "bench" => cores.push(CoreLog::default()),
            "task" => last(&mut cores, line).tasks.push(task(line, &words)),
            _ => last(&mut cores, line).calls.push(call(line, &words)),
        }
    }
    cores
}

fn last<'a>(cores: &'a mut [CoreLog], line: &str) -> &'a mut CoreLog {
    let core = cores.last_mut();
    core.unwrap_or_else(|| panic!("no core before `{line}`"))
}

fn number<T: std::str::FromStr>(word: &str, line: &str) -> T {
    let number = word.parse().ok();
    number.unwrap_or_else(|| panic!("a number in `{line}`"))
}

fn task(line: &str, words: &[&str]) -> LogTask {
    let field = |at: usize, name: &str| {
        assert_eq!(words.get(at), Some(&name), "`{line}`");
        number(words[at + 1], line)
    };
    let stroke = match words.get(8) {
        Some(&"stroke") => field(8, "stroke"),
        _ => 1,
    };
    let task = LogTask {
        number: number(words[1], line),
        period: field(2, "period"),
        budget: field(4, "budget"),
        within: field(6, "within"),
        stroke,
        name: line.split_once(" name ").map(|(_, name)| name.to_owned()),
    };
    let end = if stroke > 1 { 10 } else { 8 };
    assert!(words.len() == end || task.name.is_some(), "`{line}`");
    task
}

fn call(line: &str, words: &[&str]) -> (Call, Answer) {
    match words {
        ["tick", "idle"] => (Call::Tick, Answer::Idle),
        ["tick", task] => (Call::Tick, Answer::Ran(number(task, line))),
        ["release", task, rest @ ..] => (Call::Release(number(task, line)), answer(rest, line)),
        ["finish", task, rest @ ..] => (Call::Finish(number(task, line)), answer(rest, line)),
        _ => panic!("no line of a log: `{line}`"),
    }
}

fn answer(words: &[&str], line: &str) -> Answer {
    match words {
        ["accepted"] => Answer::Accepted,
        ["refused", word, "place", place] => {
            Answer::Refused(number(word, line), number(place, line))
        }
        _ => panic!("no answer: `{line}`"),
    }
}

/// The lines of a log that are calls, without their answers.
pub fn calls_of(log: &str) -> String {
    let line = |line: &str| match line.split(' ').collect::<Vec<_>>().as_slice() {
        ["release" | "finish", ..] => line.split(' ').take(2).collect::<Vec<_>>().join(" ") + "\n",
        ["tick", ..] => "tick\n".to_owned(),
        ["core" | "bench", ..] => format!("{line}\n"),
        _ => String::new(),
    };
    log.lines().map(line).collect()
}

struct Slot {
    number: u8,
    period: u64,
    budget: u64,
    stroke: u64,
    age: u64,
    left: u64,
}

/// A core as sections 6 and 14 tell it.
pub struct Model {
    slots: Vec<Slot>,
    /// The task in its stroke, and the ticks left to that.
    stroke: Option<(u8, u64)>,
}

impl Model {
    /// The fresh state of these tasks, in any order.
    pub fn start(tasks: &[LogTask]) -> Model {
        let slot = |task: &LogTask| Slot {
            number: task.number,
            period: task.period,
            budget: task.budget,
            stroke: task.stroke,
            age: task.period,
            left: 0,
        };
        let mut slots: Vec<Slot> = tasks.iter().map(slot).collect();
        slots.sort_by_key(|slot| (slot.period, slot.number));
        let stroke = None;
        Model { slots, stroke }
    }

    pub fn call(&mut self, call: Call) -> Answer {
        match call {
            Call::Release(number) => self.on(number, |slot| {
                if slot.age < slot.period {
                    return Answer::Refused(18, u16::from(slot.number));
                }
                if slot.left > 0 {
                    return Answer::Refused(19, u16::from(slot.number));
                }
                (slot.age, slot.left) = (0, slot.budget);
                Answer::Accepted
            }),
            Call::Finish(number) => {
                let answer = self.on(number, |slot| {
                    if slot.left == 0 {
                        return Answer::Refused(20, u16::from(slot.number));
                    }
                    slot.left = 0;
                    Answer::Accepted
                });
                let own = |(task, _): &(u8, u64)| *task == number;
                if answer == Answer::Accepted && self.stroke.as_ref().is_some_and(own) {
                    self.stroke = None;
                }
                answer
            }
            Call::Tick => self.tick(),
        }
    }

    fn on(&mut self, number: u8, then: impl Fn(&mut Slot) -> Answer) -> Answer {
        let slot = self.slots.iter_mut().find(|slot| slot.number == number);
        slot.map_or(Answer::Refused(17, 0), then)
    }

    fn tick(&mut self) -> Answer {
        let pending = self.slots.iter().find(|slot| slot.left > 0);
        let begun = pending.map(|slot| (slot.number, slot.stroke.min(slot.left)));
        let stroke = self.stroke.or(begun);
        let answer = match stroke {
            None => Answer::Idle,
            Some((number, left)) => {
                self.stroke = Some((number, left - 1)).filter(|(_, left)| *left > 0);
                self.on(number, |slot| {
                    slot.left -= 1;
                    Answer::Ran(slot.number)
                })
            }
        };
        for slot in &mut self.slots {
            slot.age = (slot.age + 1).min(slot.period);
        }
        answer
    }
}

/// The promise of unbroken strokes, by calls and answers alone: of each job the first q ticks stand together, the next q, and so on.
/// Answers how many ticks go on with a stroke while a task above it is pending.
pub fn unbroken(log: &CoreLog) -> usize {
    let mut had: BTreeMap<u8, Option<u64>> = BTreeMap::new();
    let (mut last, mut waited) = (Answer::Idle, 0);
    for (at, &(call, answer)) in log.calls.iter().enumerate() {
        match (call, answer) {
            (Call::Release(number), Answer::Accepted) => drop(had.insert(number, Some(0))),
            (Call::Finish(number), Answer::Accepted) => drop(had.insert(number, None)),
            (Call::Tick, Answer::Ran(number)) => {
                let place = log.tasks.iter().position(|task| task.number == number);
                let place = place.expect("a task of the core");
                let (task, above) = (&log.tasks[place], &log.tasks[..place]);
                let ticks = had[&number].expect("a job");
                if ticks % task.stroke > 0 {
                    assert_eq!(last, answer, "call {at} breaks a stroke of {number}");
                    let waits = |task: &LogTask| had.get(&task.number).is_some_and(Option::is_some);
                    waited += usize::from(above.iter().any(waits));
                }
                let more = Some(ticks + 1).filter(|ticks| *ticks < task.budget);
                had.insert(number, more);
                last = answer;
            }
            (Call::Tick, _) => last = answer,
            _ => {}
        }
    }
    waited
}

/// How the jobs of a task got on.
#[derive(Clone, Copy, Debug, Default, PartialEq, Eq)]
pub struct Tally {
    pub jobs: u64,
    pub late: u64,
    /// After how many ticks the latest of those that ended has ended.
    pub latest: Option<u64>,
    /// After how many ticks the last of those that are late was still seen pending, where it is not known when it ended.
    pub over: Option<u64>,
    /// Those that have not ended and have ticks left to end in.
    pub pending: u64,
}

impl Tally {
    /// The latest end and the margin as a table shows them. A job that is late and has not ended ends after more ticks than it has had.
    pub fn shown(&self, within: u64) -> (String, String) {
        let margin = |ticks: u64| within as i64 - ticks as i64;
        match (self.latest, self.over) {
            (latest, Some(over)) if latest <= Some(over) => {
                (format!("over {over}"), format!("below {}", margin(over)))
            }
            (Some(latest), _) => (latest.to_string(), margin(latest).to_string()),
            _ => ("-".to_owned(), "-".to_owned()),
        }
    }
}

/// The on-time rule, release by release: what follows an accepted release is looked at again for each of them.
pub fn judge(log: &CoreLog) -> BTreeMap<u8, Tally> {
    let mut tallies: BTreeMap<u8, Tally> = BTreeMap::new();
    for task in &log.tasks {
        let tally = tallies.entry(task.number).or_default();
        for (at, call) in log.calls.iter().enumerate() {
            if *call == (Call::Release(task.number), Answer::Accepted) {
                job(task, &log.calls[at + 1..], tally);
            }
        }
    }
    tallies
}

fn job(task: &LogTask, rest: &[(Call, Answer)], tally: &mut Tally) {
    let (mut ticks, mut had, mut late) = (0, 0, false);
    tally.jobs += 1;
    for &(call, answer) in rest {
        ticks += u64::from(call == Call::Tick);
        had += u64::from(answer == Answer::Ran(task.number));
        let finished = (call, answer) == (Call::Finish(task.number), Answer::Accepted);
        if had == task.budget || finished {
            // a finish behind the w-th tick and before the next one is later than the w-th
            let ends = match late && ticks == task.within {
                true => &mut tally.over,
                false => &mut tally.latest,
            };
            *ends = (*ends).max(Some(ticks));
            tally.late += u64::from(late);
            return;
        }
        // the w-th tick has come, and the job has not ended by it
        late |= ticks >= task.within;
    }
    if late {
        tally.late += 1;
        tally.over = tally.over.max(Some(ticks));
    } else {
        tally.pending += 1;
    }
}
