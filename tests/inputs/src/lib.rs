//! Random and damaged inputs for comparing and for timing.

mod archive;
mod calls;
mod cores;
mod grouped;
mod jobs;
mod rng;
mod sheets;
mod sized;
mod strokes;

pub use archive::{archive, in_version};
pub use calls::{any_number, random_call, Call};
pub use cores::{any_core, foreign_core, pending_states, CORE_DAMAGES};
pub use grouped::{
    damaged_grouped, grouped_sheet, likely_grouped, random_grouped, regrouped, GROUPED_DAMAGES,
};
pub use jobs::{damaged_jobs, job_list, tight_list, JOB_DAMAGES};
pub use rng::Rng;
pub use sheets::{
    damaged_sheet, handmade_sheet, likely_sheet, longest_sheet, planned_sheet, random_bytes,
    SHEET_DAMAGES,
};
pub use sized::sized_sheet;
pub use strokes::{
    damaged_strokes, likely_strokes, random_strokes, stroke_sheet, with_short_strokes,
    with_strokes, STROKE_DAMAGES,
};
