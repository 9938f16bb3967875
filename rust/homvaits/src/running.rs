use core::fmt;

use crate::{sys, Job, Place, Refusal, Sheet, Word, IDLE};

/// A task of a running core.
#[repr(C)]
#[derive(Clone, Copy, Debug, PartialEq, Eq, Hash)]
#[non_exhaustive]
pub struct Task {
    /// Ticks from one release to the next, at least.
    pub period: u16,
    /// Ticks that a job of it needs, at most.
    pub budget: u16,
    /// Ticks since its last accepted release, up to the period; the period before the first.
    pub age: u16,
    /// Ticks left to its job; 0 where none is pending.
    pub left: u16,
    /// Its number.
    pub number: u8,
    /// Its stroke length: once a job of it has a tick, it keeps the core for so many ticks in all, or until it ends. 1 but for tasks of a
    /// version 3 sheet.
    pub stroke: u8,
}

impl Task {
    /// Whether a job of it is pending: it was released, and has ticks left.
    #[must_use]
    pub const fn is_pending(&self) -> bool {
        self.left > 0
    }
}

/// A stroke that lasts: the next ticks of the core go to its task.
#[derive(Clone, Copy, Debug, PartialEq, Eq, Hash)]
#[non_exhaustive]
pub struct Stroke {
    /// The number of the task.
    pub task: u8,
    /// Ticks left to the stroke, at least 1.
    pub left: u8,
}

/// A running core.
///
/// A core started from a [`Sheet`] ends every job on time, whatever is released, finished and ticked: a job has ended at the latest
/// [`within`](crate::SheetTask::within) ticks after its release. Between two ticks of one [`Stroke`] no other task has a tick.
///
/// Time passes by [`tick`](Core::tick) and [`tick_row`] alone. A refused call leaves the core as it was.
// A slice of cores is handed to the library as a row of states, so a core must be its state and nothing more.
#[repr(transparent)]
#[derive(Clone, PartialEq, Eq, Hash)]
pub struct Core {
    state: sys::Core,
}

impl Core {
    /// Starts a core of a sheet, by its number. Any of its tasks may be released at once. A sheet and its moved sheet start alike.
    ///
    /// # Errors
    ///
    /// [`Word::Core`] with [`Place::Whole`] if the sheet has no such core.
    pub fn start(sheet: &Sheet, core: u8) -> Result<Core, Refusal> {
        let bytes = sheet.as_bytes();
        // SAFETY: pointer and length are of one slice, which is only read.
        let answer = unsafe { sys::homvaits_start(bytes.as_ptr(), bytes.len(), u64::from(core)) };
        match Core::from_step(answer) {
            // the sheet is accepted, so it is the core named here that is missing, and not a task's
            Err(refusal) if refusal.word == Word::Core => Err(Refusal {
                place: Place::Whole,
                ..refusal
            }),
            result => result,
        }
    }

    /// Starts a core from a job list without a sheet, for the bench: nothing promises that its jobs end on time, but
    /// [`margin`](crate::margin) tells of each task how many ticks its jobs have to spare. A job's place in the list is its task number.
    ///
    /// # Errors
    ///
    /// In this order: [`Word::Count`] over 64 jobs; [`Word::Period`] and [`Word::Budget`], with the task, where a job is out of range.
    pub fn start_list(jobs: &[Job]) -> Result<Core, Refusal> {
        let list = Job::list(jobs);
        let bytes = list.as_bytes();
        // SAFETY: pointer and length are of one slice, which is only read.
        Core::from_step(unsafe { sys::homvaits_start_list(bytes.as_ptr(), bytes.len()) })
    }

    /// The tasks in priority order: shorter period first, lower number among equals.
    #[must_use]
    pub fn tasks(&self) -> &[Task] {
        let count = self.state.count.min(64) as usize;
        &self.state.tasks[..count]
    }

    /// The stroke that lasts, if one does. It begins with a tick of a task whose [`stroke`](Task::stroke) is above 1, and has then one tick
    /// less than that, or than the job where that is shorter.
    ///
    /// ```
    /// use homvaits::{Core, Sheet};
    ///
    /// # fn main() -> Result<(), homvaits::Refusal> {
    /// // 1 tick every 5, and 7 ticks every 9 in strokes of 4
    /// let sheet = Sheet::check(&[
    ///     b'T', b'S', b'H', 3, 0, 2, 1, 0, // version 3
    ///     5, 0, 1, 0, 0, 1, 1, 0, 0, 0, // task 0
    ///     9, 0, 7, 0, 0, 4, 2, 0, 0, 0, // task 1
    ///     9, 0, 0, 0, 2, 0, 0, 0, // core 0
    /// ])?;
    /// let mut core = Core::start(&sheet, 0)?;
    /// core.release(1)?;
    /// assert_eq!(core.tick()?, Some(1));
    /// let stroke = core.stroke().unwrap();
    /// assert_eq!((stroke.task, stroke.left), (1, 3));
    ///
    /// core.release(0)?; // it waits for the end of the stroke
    /// let ticks = [core.tick()?, core.tick()?, core.tick()?, core.tick()?];
    /// assert_eq!(ticks, [Some(1), Some(1), Some(1), Some(0)]);
    /// assert_eq!(core.stroke(), None);
    /// # Ok(())
    /// # }
    /// ```
    #[must_use]
    pub fn stroke(&self) -> Option<Stroke> {
        let (task, left) = (self.state.stroke_task, self.state.stroke_left);
        (left > 0).then_some(Stroke { task, left })
    }

    /// Releases a task: a job of it begins. It is pending until it has had as many ticks as the budget, or is finished. A stroke that lasts
    /// goes on, whatever the priority of the task.
    ///
    /// # Errors
    ///
    /// In this order: [`Word::Foreign`] if the core's memory was damaged; [`Word::Unlisted`] if it has no such task; with the task
    /// [`Word::Early`] if fewer ticks than its period passed since its last accepted release, and [`Word::Late`] if its last job is
    /// still pending, which never comes on a core started from a sheet.
    pub fn release(&mut self, task: u8) -> Result<(), Refusal> {
        // SAFETY: no pointer is handed over; the state goes in and comes back by value.
        let answer = unsafe { sys::homvaits_release(self.state, u64::from(task)) };
        *self = Core::from_step(answer)?;
        Ok(())
    }

    /// Finishes a task's job that ends before its budget is used. A job whose budget is used ends by itself. If the job is in its stroke, the
    /// stroke ends too; a stroke of another task goes on.
    ///
    /// # Errors
    ///
    /// In this order: [`Word::Foreign`] if the core's memory was damaged; [`Word::Unlisted`] if it has no such task; [`Word::Quiet`],
    /// with the task, if it has no pending job.
    pub fn finish(&mut self, task: u8) -> Result<(), Refusal> {
        // SAFETY: no pointer is handed over; the state goes in and comes back by value.
        let answer = unsafe { sys::homvaits_finish(self.state, u64::from(task)) };
        *self = Core::from_step(answer)?;
        Ok(())
    }

    /// Begins a unit of time, and answers which task has it: while a stroke lasts its task, else the first pending one by priority, or none.
    /// Call it once for each unit.
    ///
    /// # Errors
    ///
    /// [`Word::Foreign`] if the core's memory was damaged.
    pub fn tick(&mut self) -> Result<Option<u8>, Refusal> {
        // SAFETY: no pointer is handed over; the state goes in and comes back by value.
        let answer = unsafe { sys::homvaits_tick(self.state) };
        Refusal::unless_zero(answer.refusal, answer.place)?;
        self.state = answer.core;
        Ok((answer.task != IDLE).then_some(answer.task))
    }

    fn from_step(answer: sys::Step) -> Result<Core, Refusal> {
        Refusal::unless_zero(answer.refusal, answer.place)?;
        Ok(Core { state: answer.core })
    }
}

/// Begins a unit of time on all cores of a row. Byte k of the answers is the number of the task that has it on core k of the row, or
/// [`IDLE`]; bytes past the row stay as they were.
///
/// Each core and answer is that of [`Core::tick`] on this core by itself. So every core of the row that was started from a [`Sheet`] ends
/// every job on time, an accepted row being one tick of each of its cores. A refused row leaves all cores and answers as they were, and is
/// no tick of any of them. An empty row is accepted.
///
/// ```
/// use homvaits::{plan, tick_row, Core, Job, IDLE};
///
/// # fn main() -> Result<(), homvaits::Refusal> {
/// // two tasks that each need a core
/// let sheet = plan(&[Job { period: 5, budget: 3 }; 2], 2, 0)?;
/// let mut row = [Core::start(&sheet, 0)?, Core::start(&sheet, 1)?];
/// let mut answers = [0; 2];
/// row[1].release(1)?;
/// tick_row(&mut row, &mut answers)?;
/// assert_eq!(answers, [IDLE, 1]);
/// row[0].release(0)?;
/// tick_row(&mut row, &mut answers)?;
/// assert_eq!(answers, [0, 1]);
///
/// let refusal = tick_row(&mut row, &mut answers[..1]).unwrap_err();
/// assert_eq!(
///     refusal.to_string(),
///     "refused 24 (Row): there are fewer answer bytes than core states"
/// );
/// # Ok(())
/// # }
/// ```
///
/// # Errors
///
/// In this order: [`Word::Row`] if there are fewer answer bytes than cores; [`Word::Foreign`] if a core's memory was damaged, with
/// [`Place::Row`], the position of the first such core.
pub fn tick_row(row: &mut [Core], answers: &mut [u8]) -> Result<(), Refusal> {
    // SAFETY: each pointer stands with the length of its own slice, and a slice lent for writing overlaps no other. A core is its state
    // (`repr(transparent)`), whose fields may hold any numbers.
    let answer = unsafe {
        sys::homvaits_tick_row(
            row.as_mut_ptr().cast(),
            row.len(),
            answers.as_mut_ptr(),
            answers.len(),
        )
    };
    match answer.refusal {
        0 => Ok(()),
        number => Err(Refusal::of_row(number, answer.place)),
    }
}

impl fmt::Debug for Core {
    fn fmt(&self, f: &mut fmt::Formatter<'_>) -> fmt::Result {
        f.debug_struct("Core")
            .field("tasks", &self.tasks())
            .field("stroke", &self.stroke())
            .finish()
    }
}

#[cfg(test)]
mod tests {
    use super::*;
    use std::vec;

    #[test]
    fn a_damaged_core_is_foreign_and_stays_as_it_was() {
        let jobs = [Job {
            period: 5,
            budget: 2,
        }];
        let mut core = Core::start_list(&jobs).unwrap();
        core.state.tasks[0].age = 6;
        let before = core.clone();
        let foreign = Refusal {
            word: Word::Foreign,
            place: Place::Whole,
        };
        assert_eq!(core.tick(), Err(foreign));
        assert_eq!(core.release(0), Err(foreign));
        assert_eq!(core.finish(9), Err(foreign));
        assert_eq!(core, before);
        core.state.count = u64::MAX;
        assert_eq!(core.tick(), Err(foreign));
        assert_eq!(core.tasks().len(), 64);
    }

    #[test]
    fn a_damaged_stroke_is_foreign() {
        let jobs = [(5, 2), (9, 7), (9, 6)].map(|(period, budget)| Job { period, budget });
        let mut good = Core::start_list(&jobs).unwrap();
        good.release(1).unwrap();
        good.release(2).unwrap();
        good.state.tasks[1].stroke = 4;
        good.state.tasks[2].stroke = 6;
        let foreign = Err(Refusal {
            word: Word::Foreign,
            place: Place::Whole,
        });
        let with = |change: &dyn Fn(&mut sys::Core)| {
            let mut core = good.clone();
            change(&mut core.state);
            core
        };
        let stroke =
            |task, left| with(&|state| (state.stroke_task, state.stroke_left) = (task, left));
        // none, good ones, too long, of a task that is not pending, of no task of the core, and a number without ticks
        for (task, left, served) in [
            (0, 0, Ok(Some(1))),
            (1, 1, Ok(Some(1))),
            (1, 3, Ok(Some(1))),
            (1, 4, foreign),
            (2, 5, Ok(Some(2))),
            (2, 6, foreign),
            (0, 1, foreign),
            (3, 1, foreign),
            (255, 1, foreign),
            (1, 0, foreign),
            (2, 0, foreign),
        ] {
            let mut core = stroke(task, left);
            let before = core.clone();
            assert_eq!(core.tick(), served, "{task} {left}");
            assert!(served.is_ok() || core == before);
        }
        // longer than the job
        let mut short = stroke(1, 3);
        short.state.tasks[1].left = 3;
        assert_eq!(short.clone().tick(), Ok(Some(1)));
        short.state.tasks[1].left = 2;
        assert_eq!(short.tick(), foreign);
        for length in [0, 3] {
            let mut core = with(&|state| state.tasks[0].stroke = length);
            assert_eq!(core.release(0).map(|()| None), foreign);
            assert_eq!(core.finish(1).map(|()| None), foreign);
            assert_eq!(core.tick(), foreign);
        }
        // past the tasks it is not looked at, and stays
        let mut core = with(&|state| state.tasks[3].stroke = 9);
        assert_eq!(core.tick(), Ok(Some(1)));
        assert_eq!(core.state.tasks[3].stroke, 9);
        assert_eq!(core.stroke(), Some(Stroke { task: 1, left: 3 }));
    }

    #[test]
    fn a_damaged_core_stops_its_row_at_its_position() {
        let jobs = [Job {
            period: 5,
            budget: 2,
        }];
        let mut good = Core::start_list(&jobs).unwrap();
        good.release(0).unwrap();
        let row = vec![good.clone(); 300];
        let foreign = |position| {
            Err(Refusal {
                word: Word::Foreign,
                place: Place::Row(position),
            })
        };
        let short = Err(Refusal {
            word: Word::Row,
            place: Place::Whole,
        });
        for positions in [&[0][..], &[1], &[256], &[299], &[7, 8, 299], &[0, 299]] {
            let mut damaged = row.clone();
            for &position in positions {
                damaged[position].state.tasks[0].left = 3;
            }
            let before = damaged.clone();
            let mut answers = [170; 302];
            assert_eq!(tick_row(&mut damaged, &mut answers), foreign(positions[0]));
            // fewer answer bytes come first
            assert_eq!(tick_row(&mut damaged, &mut answers[..299]), short);
            assert!(damaged == before && answers == [170; 302]);
            // the cores before the first damaged one are a good row
            let (front, _) = damaged.split_at_mut(positions[0]);
            assert_eq!(tick_row(front, &mut answers), Ok(()));
            assert!(answers[..front.len()].iter().all(|&task| task == 0));
            assert!(answers[front.len()..].iter().all(|&byte| byte == 170));
            assert!(damaged[positions[0]..] == before[positions[0]..]);
        }

        // what stands past the tasks is not looked at, and stays
        let mut core = good.clone();
        core.state.tasks[1].left = 9;
        let mut row = [core.clone(), good];
        let mut answers = [170; 2];
        tick_row(&mut row, &mut answers).unwrap();
        assert_eq!((core.tick(), answers), (Ok(Some(0)), [0, 0]));
        assert!(row[0] == core && row[0].state.tasks[1].left == 9);
    }
}
