//! The on-time rule, told by calls and answers alone (docs/SHEET.md, section 7).

use inputs::Call;

/// A call and its answer; `task` is a tick's answer.
#[derive(Clone, Copy, Debug)]
pub struct Entry {
    pub call: Call,
    pub refusal: u8,
    pub task: u8,
}

/// What is promised of a task of the core. Without a sheet there is no w.
#[derive(Clone, Copy, Debug)]
pub struct Promise {
    pub number: u64,
    pub period: u64,
    pub budget: u64,
    pub stroke: u64,
    pub within: Option<u64>,
}

impl Entry {
    fn is_tick(&self) -> bool {
        self.call == Call::Tick
    }

    pub fn accepted(&self, call: Call) -> bool {
        self.call == call && self.refusal == 0
    }

    fn runs(&self, task: &Promise) -> bool {
        self.is_tick() && self.refusal == 0 && self.task as u64 == task.number
    }
}

/// Check the log of a whole list of calls that began with a fresh state. The
/// answer is the number of jobs that were owed and ended in time.
pub fn jobs_on_time(log: &[Entry], tasks: &[Promise]) -> Result<u64, String> {
    let mut jobs = 0;
    for (at, entry) in log.iter().enumerate() {
        let (before, after) = (&log[..at], &log[at + 1..]);
        let number = match entry.call {
            Call::Tick if entry.refusal == 0 => continue,
            Call::Tick => return Err(format!("{entry:?}: a tick refused")),
            Call::Release(number) | Call::Finish(number) => number,
        };
        let task = tasks.iter().find(|task| task.number == number);
        if task.is_none() != (entry.refusal == 17) {
            return Err(format!("{entry:?}: Unlisted, for {task:?}"));
        }
        if let (Call::Release(_), Some(task)) = (entry.call, task) {
            early_when_young(entry, before, task)?;
            jobs += ended_in_time(entry, after, task)? as u64;
        }
    }
    Ok(jobs)
}

/// 18 exactly when fewer than p ticks stand since the last accepted release;
/// 19 never, where a sheet promises that.
fn early_when_young(entry: &Entry, before: &[Entry], task: &Promise) -> Result<(), String> {
    let last = before
        .iter()
        .rposition(|entry| entry.accepted(Call::Release(task.number)));
    let young = last.is_some_and(|last| {
        let ticks = before[last..]
            .iter()
            .filter(|entry| entry.is_tick())
            .count();
        (ticks as u64) < task.period
    });
    if young != (entry.refusal == 18) {
        return Err(format!("{entry:?}: Early is {young} for {task:?}"));
    }
    if entry.refusal == 19 && task.within.is_some() {
        return Err(format!("{entry:?}: Late for {task:?}"));
    }
    Ok(())
}

/// By the w-th tick after an accepted release the job has ended. False where
/// nothing is owed.
fn ended_in_time(entry: &Entry, after: &[Entry], task: &Promise) -> Result<bool, String> {
    let Some(within) = task.within else {
        return Ok(false);
    };
    if entry.refusal != 0 {
        return Ok(false);
    }
    let (mut ticks, mut runs, mut finished) = (0, 0, false);
    for later in after {
        ticks += later.is_tick() as u64;
        runs += later.runs(task) as u64;
        finished |= later.accepted(Call::Finish(task.number));
        if ticks == within {
            return match finished || runs >= task.budget {
                true => Ok(true),
                false => Err(format!("{runs} ticks only by tick {within} for {task:?}")),
            };
        }
    }
    Ok(false)
}

/// Releases and finishes with their refusals, ticks with their tasks.
#[cfg(test)]
pub fn log(list: &[(Call, u8)]) -> Vec<Entry> {
    let entry = |&(call, answer): &(Call, u8)| match call {
        Call::Tick => Entry {
            call,
            refusal: 0,
            task: answer,
        },
        _ => Entry {
            call,
            refusal: answer,
            task: 0,
        },
    };
    list.iter().map(entry).collect()
}

#[cfg(test)]
mod tests {
    use super::*;
    use Call::*;

    const TASKS: [Promise; 1] = [Promise {
        number: 3,
        period: 4,
        budget: 2,
        stroke: 1,
        within: Some(3),
    }];

    fn jobs(list: &[(Call, u8)]) -> Option<u64> {
        jobs_on_time(&log(list), &TASKS).ok()
    }

    #[test]
    fn ends_by_its_last_tick() {
        let release = (Release(3), 0);
        assert_eq!(jobs(&[release, (Tick, 3), (Tick, 255), (Tick, 3)]), Some(1));
        assert_eq!(jobs(&[release, (Tick, 3), (Tick, 255), (Tick, 255)]), None);
        let finish = (Finish(3), 0);
        assert_eq!(
            jobs(&[release, (Tick, 3), finish, (Tick, 255), (Tick, 255)]),
            Some(1)
        );
        let refused = (Finish(3), 20);
        assert_eq!(
            jobs(&[release, (Tick, 3), refused, (Tick, 255), (Tick, 255)]),
            None
        );
    }

    #[test]
    fn owes_nothing_before() {
        assert_eq!(jobs(&[]), Some(0));
        assert_eq!(jobs(&[(Release(3), 0), (Tick, 255), (Tick, 255)]), Some(0));
    }

    #[test]
    fn early_by_ticks() {
        let first = [(Release(3), 0), (Tick, 3), (Tick, 3), (Tick, 255)];
        let then = |more: &[(Call, u8)]| jobs(&[&first[..], more].concat());
        assert_eq!(then(&[(Release(3), 18)]), Some(1));
        assert_eq!(then(&[(Release(3), 0)]), None);
        assert_eq!(then(&[(Tick, 255), (Release(3), 0)]), Some(1));
        assert_eq!(then(&[(Tick, 255), (Release(3), 18)]), None);
        assert_eq!(then(&[(Tick, 255), (Release(3), 19)]), None);
        assert_eq!(jobs(&[(Release(3), 18)]), None);
    }

    #[test]
    fn unlisted_only_off_the_core() {
        assert_eq!(jobs(&[(Release(2), 17), (Finish(64), 17)]), Some(0));
        assert_eq!(jobs(&[(Release(2), 0)]), None);
        assert_eq!(jobs(&[(Finish(2), 20)]), None);
        assert_eq!(jobs(&[(Release(3), 17)]), None);
    }
}
