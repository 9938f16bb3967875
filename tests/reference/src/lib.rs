//! Timing sheets as plain Rust, written from document 01 and the requests of
//! document 02 that have landed, which docs/SHEET.md says in our words, and
//! from the readings of their open sentences, not from the verified code. It
//! is for clarity and not for speed, and is total: any bytes, any numbers and
//! any state have an answer. All arithmetic is exact.

mod answers;
mod checker;
mod dispatcher;
mod fraction;
mod jobs;
mod listing;
mod margin;
mod mover;
mod planner;
mod row;
mod sheet;

pub use answers::{
    CheckAnswer, Core, CoreAnswer, ListAnswer, MarginAnswer, MoveAnswer, PlanAnswer, RowAnswer,
    Task, TickAnswer, IDLE,
};
pub use checker::{accept, check};
pub use dispatcher::{finish, release, start_list, start_sheet, tick};
pub use fraction::Fraction;
pub use jobs::Job;
pub use listing::{list, list_into, LISTING_ROOM};
pub use margin::margin;
pub use mover::move_sheet;
pub use planner::{
    construction_of, dct, plan, plan_by, ring_order, sr, trials, Construction, Round, Trial, ROUNDS,
};
pub use row::tick_row;
pub use sheet::{version, CoreRecord, Grouping, Sheet, TaskRecord, LONGEST_SHEET};

/// The ranges of counts, periods and factors (docs/SHEET.md, section 2).
pub const MOST_TASKS: usize = 64;
pub const MOST_CORES: usize = 8;
pub const LONGEST_PERIOD: u64 = 60_000;
pub const LARGEST_FACTOR: u64 = 120_000;

/// A refusal: its number (docs/SHEET.md, section 9) and its place.
#[derive(Clone, Copy, Debug, PartialEq, Eq)]
pub struct Refusal {
    pub number: u8,
    pub place: u16,
}

/// What is left to do, or a refusal.
pub type Outcome<T> = Result<T, Refusal>;

/// Refuse with `number` if `broken`; the place is 0.
fn refuse_if(number: u8, broken: bool) -> Outcome<()> {
    refuse_at(number, broken.then_some(0))
}

/// Refuse with `number` at the place where the rule is broken, if it is.
fn refuse_at(number: u8, broken: Option<usize>) -> Outcome<()> {
    match broken {
        None => Ok(()),
        Some(place) => Err(Refusal {
            number,
            place: place as u16,
        }),
    }
}
