//! The C interface of the verified library, declared and wrapped safely. The
//! structs are the reference's, which have the fields of the interface in its
//! layout.

mod layout {
    use reference::{CheckAnswer as Checked, ListAnswer as Listed, PlanAnswer as Planned};
    use reference::{Core, CoreAnswer as Step, Task, TickAnswer as Ticked};
    use reference::{MarginAnswer as Margined, MoveAnswer as Moved, RowAnswer as RowTicked};
    include!("../../../rust/homvaits/src/layout.rs");
}

use reference::{CheckAnswer, ListAnswer, MarginAnswer, MoveAnswer, PlanAnswer};
use reference::{Core, CoreAnswer, RowAnswer, TickAnswer};

// a row of states stands in memory as in C: one after the other, 656 bytes each
const _: () = assert!(size_of::<[Core; 2]>() == 2 * 656 && align_of::<Core>() == 8);

extern "C" {
    fn homvaits_layout() -> u32;
    fn homvaits_check(sheet: *const u8, len: usize) -> CheckAnswer;
    fn homvaits_plan(
        jobs: *const u8,
        len: usize,
        limit: u64,
        start: u64,
        out: *mut u8,
        out_len: usize,
    ) -> PlanAnswer;
    fn homvaits_start(sheet: *const u8, len: usize, core: u64) -> CoreAnswer;
    fn homvaits_start_list(jobs: *const u8, len: usize) -> CoreAnswer;
    fn homvaits_release(core: Core, number: u64) -> CoreAnswer;
    fn homvaits_finish(core: Core, number: u64) -> CoreAnswer;
    fn homvaits_tick(core: Core) -> TickAnswer;
    /// For memory that cannot be written; else there is `tick_row`.
    pub fn homvaits_tick_row(
        row: *mut Core,
        count: usize,
        answers: *mut u8,
        answers_length: usize,
    ) -> RowAnswer;
    fn homvaits_list(sheet: *const u8, len: usize, out: *mut u8, out_len: usize) -> ListAnswer;
    fn homvaits_margin(jobs: *const u8, len: usize, number: u64) -> MarginAnswer;
    fn homvaits_move(sheet: *const u8, len: usize, out: *mut u8, out_len: usize) -> MoveAnswer;
}

include!("../../../rust/homvaits/src/number.rs");

/// Fails where the library has another layout. To be called once, before the others.
pub fn assert_layout() {
    let has = unsafe { homvaits_layout() };
    assert_eq!(has, LAYOUT, "the layout of the library");
}

// Every call is total; it reads and writes only the slices it is lent, whose
// pointers and lengths stand side by side below.

pub fn check(sheet: &[u8]) -> CheckAnswer {
    unsafe { homvaits_check(sheet.as_ptr(), sheet.len()) }
}

pub fn plan(jobs: &[u8], limit: u64, start: u64, out: &mut [u8]) -> PlanAnswer {
    let (out, out_len) = (out.as_mut_ptr(), out.len());
    unsafe { homvaits_plan(jobs.as_ptr(), jobs.len(), limit, start, out, out_len) }
}

pub fn start_sheet(sheet: &[u8], core: u64) -> CoreAnswer {
    unsafe { homvaits_start(sheet.as_ptr(), sheet.len(), core) }
}

pub fn start_list(jobs: &[u8]) -> CoreAnswer {
    unsafe { homvaits_start_list(jobs.as_ptr(), jobs.len()) }
}

pub fn release(core: Core, number: u64) -> CoreAnswer {
    unsafe { homvaits_release(core, number) }
}

pub fn finish(core: Core, number: u64) -> CoreAnswer {
    unsafe { homvaits_finish(core, number) }
}

pub fn tick(core: Core) -> TickAnswer {
    unsafe { homvaits_tick(core) }
}

pub fn tick_row(row: &mut [Core], answers: &mut [u8]) -> RowAnswer {
    let (row, count) = (row.as_mut_ptr(), row.len());
    let (answers, answers_length) = (answers.as_mut_ptr(), answers.len());
    unsafe { homvaits_tick_row(row, count, answers, answers_length) }
}

pub fn list_into(sheet: &[u8], out: &mut [u8]) -> ListAnswer {
    let (out, out_len) = (out.as_mut_ptr(), out.len());
    unsafe { homvaits_list(sheet.as_ptr(), sheet.len(), out, out_len) }
}

pub fn margin(jobs: &[u8], number: u64) -> MarginAnswer {
    unsafe { homvaits_margin(jobs.as_ptr(), jobs.len(), number) }
}

pub fn move_sheet(sheet: &[u8], out: &mut [u8]) -> MoveAnswer {
    let (out, out_len) = (out.as_mut_ptr(), out.len());
    unsafe { homvaits_move(sheet.as_ptr(), sheet.len(), out, out_len) }
}
