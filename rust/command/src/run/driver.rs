//! Calls on a core: as early as they may be, at random, or as they are told.

use homvaits::Core;

use crate::log::reader::Told;
use crate::log::{Answer, Call, Entry};
use crate::rng::Rng;

/// A core, and what has happened on it.
pub struct Driver {
    core: Core,
    pub entries: Vec<Entry>,
}

impl Driver {
    pub fn new(core: Core) -> Driver {
        let entries = Vec::new();
        Driver { core, entries }
    }

    /// Makes a call, and logs what the library answers.
    fn call(&mut self, call: Call) -> Answer {
        let result = match call {
            Call::Release(task) => self.core.release(task).map(|()| Answer::Accepted),
            Call::Finish(task) => self.core.finish(task).map(|()| Answer::Accepted),
            Call::Tick => self.core.tick().map(Answer::Ticked),
        };
        let answer = result
            .unwrap_or_else(|refusal| Answer::Refused(refusal.number(), refusal.place.number()));
        self.entries.push(Entry { call, answer });
        answer
    }

    /// The tasks that may be released: a period has passed, and none of their jobs is pending.
    fn ready(&self) -> Vec<u8> {
        let tasks = self.core.tasks().iter();
        let ready = tasks.filter(|task| task.age >= task.period && !task.is_pending());
        ready.map(|task| task.number).collect()
    }

    /// Releases each task as soon as it may be, and lets each job use its budget.
    pub fn earliest(&mut self, ticks: usize) {
        for _ in 0..ticks {
            for task in self.ready() {
                self.call(Call::Release(task));
            }
            self.call(Call::Tick);
        }
    }

    /// Releases sooner or later, finishes some jobs early, and makes some calls without looking whether they will be refused.
    pub fn random(&mut self, ticks: usize, seed: u64) {
        let mut rng = Rng(seed);
        for _ in 0..ticks {
            for task in self.ready() {
                if rng.once_in(2) {
                    self.call(Call::Release(task));
                }
            }
            if rng.once_in(16) {
                let call = self.any_call(&mut rng);
                self.call(call);
            }
            self.call(Call::Tick);
        }
    }

    /// A release or a finish of a task of the core or, once in as many times as it has tasks and one more, of any number.
    fn any_call(&self, rng: &mut Rng) -> Call {
        let tasks = self.core.tasks();
        let number = match tasks.get(rng.below(tasks.len() as u64 + 1) as usize) {
            Some(task) => task.number,
            None => rng.below(64) as u8,
        };
        match rng.once_in(4) {
            true => Call::Release(number),
            false => Call::Finish(number),
        }
    }

    /// Makes the calls that are told, and hands on each answer of the library that is not the one that is told.
    pub fn told(&mut self, calls: &[Told], mut differs: impl FnMut(&Told, Answer)) {
        for told in calls {
            let answer = self.call(told.call);
            if told.answer.is_some_and(|told| told != answer) {
                differs(told, answer);
            }
        }
    }
}
