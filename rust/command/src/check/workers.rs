//! Files checked by all processors, and their answers in order.

use std::collections::BTreeMap;
use std::num::NonZero;
use std::sync::{Condvar, Mutex, MutexGuard, PoisonError};
use std::thread;

use super::answers::{Answers, Style};
use super::walk::Found;

/// How many files a worker takes at a time.
const RUN: usize = 64;

/// How many runs may be taken before the first of them is handed on. This bounds the memory of answers that wait.
const AHEAD: usize = 256;

/// Checks files, and hands on the answers to each run of them in order.
pub fn check(files: &[Found], style: Style, mut hand_on: impl FnMut(Answers)) {
    let queue = Queue::new(files);
    thread::scope(|scope| {
        let start = || thread::Builder::new().spawn_scoped(scope, || queue.work(style));
        // where the system gives no thread, this one does the work
        let workers = (0..workers(queue.runs())).map_while(|_| start().ok());
        match workers.count() {
            0 => files
                .chunks(RUN)
                .for_each(|run| hand_on(Answers::to(run, style))),
            _ => (0..queue.runs()).for_each(|_| hand_on(queue.next())),
        }
    });
}

/// How many threads are worth their start.
fn workers(runs: usize) -> usize {
    match runs {
        0 | 1 => 0,
        _ => thread::available_parallelism()
            .map_or(1, NonZero::get)
            .min(runs),
    }
}

/// Runs of files that workers take, and their answers.
struct Queue<'a> {
    files: &'a [Found],
    state: Mutex<State>,
    /// The next answers are there.
    answered: Condvar,
    /// Answers were handed on.
    handed_on: Condvar,
}

#[derive(Default)]
struct State {
    /// How many runs were taken.
    taken: usize,
    /// How many runs' answers were handed on.
    handed_on: usize,
    waiting: BTreeMap<usize, Answers>,
}

impl Queue<'_> {
    fn new(files: &[Found]) -> Queue<'_> {
        Queue {
            files,
            state: Mutex::default(),
            answered: Condvar::new(),
            handed_on: Condvar::new(),
        }
    }

    fn runs(&self) -> usize {
        self.files.len().div_ceil(RUN)
    }

    fn state(&self) -> MutexGuard<'_, State> {
        self.state.lock().unwrap_or_else(PoisonError::into_inner)
    }

    /// What a worker does.
    fn work(&self, style: Style) {
        while let Some(number) = self.take() {
            let run = self.files.chunks(RUN).nth(number).unwrap_or_default();
            let answers = Answers::to(run, style);
            let mut state = self.state();
            state.waiting.insert(number, answers);
            if number == state.handed_on {
                self.answered.notify_one();
            }
        }
    }

    /// The number of the next run, as soon as it may be taken; none if all are.
    fn take(&self) -> Option<usize> {
        let far = |state: &mut State| state.taken >= state.handed_on + AHEAD;
        let state = self.handed_on.wait_while(self.state(), far);
        let mut state = state.unwrap_or_else(PoisonError::into_inner);
        let number = state.taken;
        (number < self.runs()).then(|| {
            state.taken += 1;
            number
        })
    }

    /// The next answers in order. There must be some to come.
    fn next(&self) -> Answers {
        let mut state = self.state();
        loop {
            let number = state.handed_on;
            if let Some(answers) = state.waiting.remove(&number) {
                state.handed_on += 1;
                self.handed_on.notify_all();
                return answers;
            }
            let woken = self.answered.wait(state);
            state = woken.unwrap_or_else(PoisonError::into_inner);
        }
    }
}

#[cfg(test)]
mod tests {
    use super::*;

    #[test]
    fn answers_come_in_order() {
        let style = Style {
            quiet: false,
            json: false,
        };
        let found = |number: usize| Found {
            path: number.to_string().into(),
            error: Some("no".into()),
        };
        for count in [0, 1, RUN, RUN + 1, RUN * (2 * AHEAD) + 5] {
            let files: Vec<Found> = (0..count).map(found).collect();
            let mut told = Vec::new();
            check(&files, style, |answers| told.extend(answers.told));
            let expected = |number| (String::new(), format!("homvaits check: {number}: no"));
            assert!(told.into_iter().eq((0..count).map(expected)));
        }
    }
}
