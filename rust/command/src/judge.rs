//! The jobs of a log, and the on-time rule (docs/SHEET.md, section 7), by calls and answers alone.

use std::collections::VecDeque;

use crate::log::{Answer, Call, Entry, Log, Task};

/// A job: an accepted release of a task, and what came of it.
#[derive(Clone, Copy, Debug, PartialEq, Eq)]
pub struct Job {
    /// The place of its task in the log's order of priority.
    pub row: usize,
    /// How many ticks there were before its release.
    pub released: usize,
    /// How many there must be at most when it has ended: w more.
    pub due: usize,
    /// How many there were when it had ended; none where it is pending to the end of the log.
    pub ended: Option<usize>,
    /// Whether a finish ended it, and not its last tick.
    pub finished: bool,
    /// Whether w ticks came after its release and it had not ended by the last of them.
    pub late: bool,
}

/// How the jobs of a task got on.
#[derive(Clone, Copy, Debug, Default, PartialEq, Eq)]
pub struct Tally {
    pub jobs: usize,
    pub late: usize,
    /// The most ticks from a release to the job's end; none where no job has ended.
    pub latest: Option<usize>,
    /// Ticks since the release of the oldest job that is pending at the end of the log.
    pub pending: Option<usize>,
}

/// The jobs of a log, in the order of their releases. A call on a number that no task has makes no job and ends none.
pub fn jobs(log: &Log) -> Vec<Job> {
    let mut judge = Judge::new(&log.tasks);
    for entry in &log.entries {
        judge.take(entry);
    }
    judge.jobs
}

/// The tallies of the tasks, in order of priority.
pub fn tallies(log: &Log, jobs: &[Job]) -> Vec<Tally> {
    let ticks = log.ticks();
    let mut tallies = vec![Tally::default(); log.tasks.len()];
    for job in jobs {
        let tally = &mut tallies[job.row];
        tally.jobs += 1;
        tally.late += usize::from(job.late);
        match job.ended {
            Some(ended) => tally.latest = tally.latest.max(Some(ended - job.released)),
            None => tally.pending = tally.pending.max(Some(ticks - job.released)),
        }
    }
    tallies
}

/// What is going on at a task. Its jobs come to their ends and to their due moments in the order of their releases.
#[derive(Clone, Default)]
struct Row {
    /// How many ticks it had.
    served: usize,
    /// The jobs that have not ended, by their places among the jobs, each with the ticks that the task had at its release.
    pending: VecDeque<(usize, usize)>,
    /// The jobs whose due moments are to come.
    owed: VecDeque<usize>,
}

struct Judge<'a> {
    tasks: &'a [Task],
    rows: Vec<Row>,
    ticks: usize,
    jobs: Vec<Job>,
}

impl<'a> Judge<'a> {
    fn new(tasks: &'a [Task]) -> Judge<'a> {
        Judge {
            tasks,
            rows: vec![Row::default(); tasks.len()],
            ticks: 0,
            jobs: Vec::new(),
        }
    }

    fn row(&self, number: u8) -> Option<usize> {
        self.tasks.iter().position(|task| task.number == number)
    }

    fn take(&mut self, entry: &Entry) {
        match (entry.call, entry.answer) {
            (Call::Release(number), Answer::Accepted) => self.release(number),
            (Call::Finish(number), Answer::Accepted) => self.finish(number),
            (Call::Tick, Answer::Ticked(served)) => self.tick(served),
            _ => {}
        }
    }

    fn release(&mut self, number: u8) {
        let Some(place) = self.row(number) else {
            return;
        };
        let (row, job) = (&mut self.rows[place], self.jobs.len());
        row.pending.push_back((job, row.served));
        row.owed.push_back(job);
        self.jobs.push(Job {
            row: place,
            released: self.ticks,
            due: self.ticks + usize::from(self.tasks[place].within),
            ended: None,
            finished: false,
            late: false,
        });
    }

    fn finish(&mut self, number: u8) {
        let Some(place) = self.row(number) else {
            return;
        };
        for (job, _) in self.rows[place].pending.drain(..) {
            self.jobs[job].ended = Some(self.ticks);
            self.jobs[job].finished = true;
        }
    }

    fn tick(&mut self, served: Option<u8>) {
        self.ticks += 1;
        if let Some(place) = served.and_then(|number| self.row(number)) {
            self.serve(place);
        }
        for row in &mut self.rows {
            // a job that is due now and has not ended is late
            while let Some(&job) = row.owed.front() {
                let job = &mut self.jobs[job];
                if job.due > self.ticks {
                    break;
                }
                job.late = job.ended.is_none();
                row.owed.pop_front();
            }
        }
    }

    /// A task has a tick: each of its pending jobs has one more, and ends with as many as the budget.
    fn serve(&mut self, place: usize) {
        let row = &mut self.rows[place];
        row.served += 1;
        let budget = usize::from(self.tasks[place].budget);
        while let Some(&(job, before)) = row.pending.front() {
            if row.served - before < budget {
                break;
            }
            self.jobs[job].ended = Some(self.ticks);
            row.pending.pop_front();
        }
    }
}

#[cfg(test)]
mod tests {
    use super::*;
    use crate::log::Origin;
    use Call::{Finish, Release, Tick};

    /// A task of number 3 with period 4, budget 2, within 3, and one of number 5 with period 9, budget 1, within 8.
    fn judged(entries: &[(Call, Answer)]) -> (Log, Vec<Job>) {
        let task = |number, period, budget, within| Task {
            number,
            period,
            budget,
            within,
            stroke: 1,
            name: None,
        };
        let entry = |&(call, answer): &(Call, Answer)| Entry { call, answer };
        let log = Log {
            origin: Origin::Core(0),
            tasks: vec![task(3, 4, 2, 3), task(5, 9, 1, 8)],
            entries: entries.iter().map(entry).collect(),
        };
        let jobs = jobs(&log);
        (log, jobs)
    }

    const RELEASE: (Call, Answer) = (Release(3), Answer::Accepted);
    const FINISH: (Call, Answer) = (Finish(3), Answer::Accepted);
    const RUNS: (Call, Answer) = (Tick, Answer::Ticked(Some(3)));
    const IDLE: (Call, Answer) = (Tick, Answer::Ticked(None));
    const REFUSED: (Call, Answer) = (Finish(3), Answer::Refused(20, 3));

    /// When the only job ended, and whether it is late.
    fn only(entries: &[(Call, Answer)]) -> (Option<usize>, bool) {
        let (_, jobs) = judged(entries);
        assert_eq!(jobs.len(), 1);
        (jobs[0].ended, jobs[0].late)
    }

    #[test]
    fn a_job_has_ended_by_its_last_tick() {
        assert_eq!(only(&[RELEASE, RUNS, IDLE, RUNS]), (Some(3), false));
        assert_eq!(only(&[RELEASE, RUNS, IDLE, IDLE]), (None, true));
        assert_eq!(only(&[RELEASE, RUNS, IDLE, IDLE, RUNS]), (Some(4), true));
        assert_eq!(only(&[IDLE, RELEASE, RUNS, IDLE, RUNS]), (Some(4), false));
    }

    #[test]
    fn a_finish_ends_a_job_if_it_is_accepted() {
        assert_eq!(only(&[RELEASE, FINISH, IDLE, IDLE, IDLE]), (Some(0), false));
        assert_eq!(only(&[RELEASE, RUNS, REFUSED, IDLE, IDLE]), (None, true));
        // the third tick is the last by which it must have ended
        assert_eq!(only(&[RELEASE, IDLE, IDLE, FINISH, IDLE]), (Some(2), false));
        assert_eq!(only(&[RELEASE, IDLE, IDLE, IDLE, FINISH]), (Some(3), true));
        let other = (Finish(5), Answer::Accepted);
        assert_eq!(only(&[RELEASE, IDLE, other, IDLE, IDLE]), (None, true));
    }

    #[test]
    fn nothing_is_owed_before_its_time() {
        assert_eq!(only(&[RELEASE, IDLE, IDLE]), (None, false));
        assert!(
            judged(&[(Release(3), Answer::Refused(18, 3)), IDLE, IDLE, IDLE])
                .1
                .is_empty()
        );
        assert!(judged(&[(Release(4), Answer::Accepted), IDLE, IDLE, IDLE])
            .1
            .is_empty());
        let refused = (Tick, Answer::Refused(21, 0));
        assert_eq!(only(&[RELEASE, refused, refused, refused]), (None, false));
    }

    #[test]
    fn tallies_count_jobs_and_the_latest_end() {
        let entries = [
            RELEASE, RUNS, RUNS, IDLE, IDLE, RELEASE, RUNS, IDLE, RUNS, IDLE,
        ];
        let (log, jobs) = judged(&entries);
        let tallies = tallies(&log, &jobs);
        assert_eq!((tallies[0].jobs, tallies[0].late), (2, 0));
        assert_eq!((tallies[0].latest, tallies[0].pending), (Some(3), None));
        assert_eq!(tallies[1], Tally::default());
        let (log, jobs) = judged(&[RELEASE, RUNS]);
        assert_eq!(super::tallies(&log, &jobs)[0].pending, Some(1));
    }
}
