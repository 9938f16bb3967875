//! Safe Rust over the proved library: checks, plans and runs timing sheets. What a sheet is and when a core fits is told in
//! `docs/SHEET.md` of the repository.
//!
//! A [`Sheet`] is an accepted one, checked, planned or moved. A [`Core`] is started from it, and then told what happens: a task is
//! released, a job ends early, a unit of time begins. The answer to a tick is the task that has this unit of time. Where one timer drives
//! several cores, [`tick_row`] ticks a row of them in one call.
//!
//! ```
//! use homvaits::{plan, Core, Job};
//!
//! # fn main() -> Result<(), homvaits::Refusal> {
//! // every 5 ticks for 1 tick, and every 9 ticks for 7, on one core
//! let jobs = [Job { period: 5, budget: 1 }, Job { period: 9, budget: 7 }];
//! let sheet = plan(&jobs, 1, 0)?;
//! let within: Vec<u16> = sheet.tasks().map(|task| task.within).collect();
//! assert_eq!(within, [4, 9]);
//!
//! let mut core = Core::start(&sheet, 0)?;
//! core.release(0)?;
//! core.release(1)?;
//! assert_eq!(core.tick()?, Some(0)); // task 0 has its one tick, and so its job ends
//! assert_eq!(core.tick()?, Some(1));
//! core.finish(1)?; // this job ends with most of its budget unused
//! assert_eq!(core.tick()?, None);
//!
//! let refusal = core.release(0).unwrap_err();
//! assert_eq!(
//!     refusal.to_string(),
//!     "refused 18 (Early) at task 0: fewer ticks than its period since the task's last release"
//! );
//! # Ok(())
//! # }
//! ```
//!
//! # Versions
//!
//! A sheet is of version 1, with its tasks by number, or of version 2, which is for printing: its tasks stand core by core, each core by
//! priority, and have their numbers with them. [`plan`] makes version 1, and [`move_sheet`] turns one into the other. Version 3 is version 1
//! with a stroke length for each task, for jobs that cannot be broken off after just any tick; [`Core::stroke`] has an example. Every call takes
//! all three, but for [`move_sheet`], and tasks go by their numbers; only the places of a refused sheet of version 2 go by position.
//!
//! # The library
//!
//! The crate links `target/staticlib/libcapi.a` of the repository, which `./build capi` writes for x86-64 Linux, or the file whose
//! whole path is in the environment variable `HOMVAITS_LIB` at build time. Crate and library belong together. Both know the number of the
//! layout of structs and signatures, [`LAYOUT`]: the library has a symbol whose name ends with it, and the build script stops with an error
//! that says which the library has, if any, and which the crate needs. A refusal or place that only another library of the same layout can give
//! is handed on as [`Word::Other`] or [`Place::Other`].
//!
//! No call panics, and none uses a heap, a global or std.

#![no_std]
#![deny(missing_docs)]

#[cfg(test)]
extern crate std;

mod job;
mod number;
mod refusal;
mod running;
mod sheet;
mod sys;

pub use job::Job;
pub use number::LAYOUT;
pub use refusal::{Place, Refusal, Word};
pub use running::{tick_row, Core, Stroke, Task};
pub use sheet::{Sheet, SheetCore, SheetTask};

/// Bytes of the longest sheet.
pub const SHEET_MAX: usize = 712;

/// Bytes that are enough for every listing.
pub const LISTING_MAX: usize = 8192;

/// The answer byte of [`tick_row`] for a core on which no task is pending.
pub const IDLE: u8 = 255;

/// The counts of an accepted sheet.
#[derive(Clone, Copy, Debug, PartialEq, Eq, Hash)]
#[non_exhaustive]
pub struct Counts {
    /// How many tasks it has.
    pub tasks: u8,
    /// How many cores it has.
    pub cores: u8,
}

/// Checks bytes without a copy. [`Sheet::check`] keeps what is accepted.
///
/// # Errors
///
/// The first rule that is broken, in the order of the numbers 1 to 14 ([`Word::Stub`] to [`Word::Overload`]). In a sheet of version 2
/// [`Word::Order`], 23, comes after [`Word::Budget`], 8, and [`Word::Core`], 9, does not come. In one of version 3 [`Word::Stroke`], 25,
/// comes after [`Word::Budget`].
pub fn check(bytes: &[u8]) -> Result<Counts, Refusal> {
    // SAFETY: pointer and length are of one slice, which is only read.
    let answer = unsafe { sys::homvaits_check(bytes.as_ptr(), bytes.len()) };
    Refusal::unless_zero(answer.refusal, answer.place)?;
    Ok(Counts {
        tasks: answer.tasks,
        cores: answer.cores,
    })
}

/// Plans a job list on at most `limit` cores (0 to 8), walking the ring of the jobs from position `start`. Another start may find
/// another plan. A job's place in the list is its task number. The sheet is of version 1.
///
/// # Errors
///
/// In this order: [`Word::Count`] over 64 jobs or with a limit above 8; [`Word::Period`] and [`Word::Budget`], with the task, where a
/// job is out of range; [`Word::Start`] if the start is not below the number of jobs (not 0 where there are none); [`Word::NoFit`],
/// with the task that found no core.
pub fn plan(jobs: &[Job], limit: u8, start: usize) -> Result<Sheet, Refusal> {
    let list = Job::list(jobs);
    let list = list.as_bytes();
    let mut out = [0; SHEET_MAX];
    // SAFETY: each pointer stands with the length of its own slice; the output is a local that no other slice overlaps.
    let answer = unsafe {
        sys::homvaits_plan(
            list.as_ptr(),
            list.len(),
            u64::from(limit),
            start as u64,
            out.as_mut_ptr(),
            out.len(),
        )
    };
    Refusal::unless_zero(answer.refusal, answer.place)?;
    Ok(Sheet::accepted(out, answer.length))
}

/// Moves a sheet to the other version, 1 to 2 or 2 to 1. The moved sheet has the same tasks and cores, and moving it gives these bytes.
///
/// ```
/// use homvaits::{move_sheet, plan, Core, Job};
///
/// # fn main() -> Result<(), homvaits::Refusal> {
/// let jobs = [Job { period: 9, budget: 7 }, Job { period: 5, budget: 1 }];
/// let sheet = plan(&jobs, 1, 0)?;
/// let moved = move_sheet(sheet.as_bytes())?;
/// assert_eq!((sheet.version(), moved.version()), (1, 2));
/// assert!(sheet.tasks().eq(moved.tasks())); // by number, and not by position
/// assert_eq!(Core::start(&sheet, 0)?, Core::start(&moved, 0)?);
/// assert_eq!(move_sheet(moved.as_bytes())?, sheet);
/// # Ok(())
/// # }
/// ```
///
/// # Errors
///
/// As [`check`], but of a sheet of version 3, good or not, [`Word::Version`], after [`Word::Mark`]: version 2 has no place for strokes.
pub fn move_sheet(bytes: &[u8]) -> Result<Sheet, Refusal> {
    let mut out = [0; SHEET_MAX];
    // SAFETY: each pointer stands with the length of its own slice; the output is a local that no other slice overlaps.
    let answer =
        unsafe { sys::homvaits_move(bytes.as_ptr(), bytes.len(), out.as_mut_ptr(), out.len()) };
    Refusal::unless_zero(answer.refusal, answer.place)?;
    Ok(Sheet::accepted(out, answer.length))
}

/// The listing of any bytes, in a lent buffer. That of a version 2 sheet is that of its version 1 sheet but for the version, and that of a
/// version 3 sheet says nothing of strokes. A refused sheet has a listing too, one line such as `refused 14 place 64`.
///
/// ```
/// let mut out = [0; homvaits::LISTING_MAX];
/// assert_eq!(homvaits::list(b"TSH", &mut out), "refused 1 place 0\n");
/// ```
#[must_use]
pub fn list<'a>(bytes: &[u8], out: &'a mut [u8; LISTING_MAX]) -> &'a str {
    // SAFETY: each pointer stands with the length of its own slice, and a slice lent for writing overlaps no other.
    let answer =
        unsafe { sys::homvaits_list(bytes.as_ptr(), bytes.len(), out.as_mut_ptr(), out.len()) };
    // a listing is ASCII and fits, so neither default is ever taken
    let text = out.get(..usize::from(answer.length)).unwrap_or_default();
    core::str::from_utf8(text).unwrap_or_default()
}

/// The margin of a task of a job list on one core: how many ticks its jobs have to spare. A job's place in the list is its task number.
///
/// Zero or more: in every run from [`Core::start_list`] each job of this task has ended so many ticks before its period is over, whatever
/// the other margins are. The margin is zero or more for every task of the list exactly when no run from [`Core::start_list`] leaves a
/// job pending once its period has passed since its release, whatever is released, finished and ticked. Below zero: some job of the list,
/// not always one of this task, can be pending so.
///
/// ```
/// use homvaits::{margin, Job};
///
/// # fn main() -> Result<(), homvaits::Refusal> {
/// let jobs = [(5, 2), (7, 4), (35, 1)].map(|(period, budget)| Job { period, budget });
/// assert_eq!(margin(&jobs, 0)?, 3);
/// assert_eq!(margin(&jobs, 1)?, -1); // in 7 ticks task 0 may take 4, and task 1 needs 4
/// assert_eq!(margin(&jobs, 2)?, 0);
/// # Ok(())
/// # }
/// ```
///
/// # Errors
///
/// In this order: [`Word::Count`] over 64 jobs; [`Word::Period`] and [`Word::Budget`], with the task, where a job is out of range;
/// [`Word::Unlisted`] if the list has no such task.
pub fn margin(jobs: &[Job], task: u8) -> Result<i32, Refusal> {
    let list = Job::list(jobs);
    let bytes = list.as_bytes();
    // SAFETY: pointer and length are of one slice, which is only read.
    let answer = unsafe { sys::homvaits_margin(bytes.as_ptr(), bytes.len(), u64::from(task)) };
    Refusal::unless_zero(answer.refusal, answer.place)?;
    Ok(answer.margin)
}
