//! The C interface, as `include/homvaits.h` declares it.

use crate::Task;

#[repr(C)]
#[derive(Clone, Copy, PartialEq, Eq, Hash)]
pub struct Core {
    pub count: u64,
    pub tasks: [Task; 64],
    pub stroke_task: u8,
    pub stroke_left: u8,
}

#[repr(C)]
pub struct Checked {
    pub refusal: u8,
    pub place: u16,
    pub tasks: u8,
    pub cores: u8,
}

#[repr(C)]
pub struct Planned {
    pub refusal: u8,
    pub place: u16,
    pub tasks: u8,
    pub cores: u8,
    pub length: u16,
}

#[repr(C)]
pub struct Step {
    pub refusal: u8,
    pub place: u16,
    pub core: Core,
}

#[repr(C)]
pub struct Ticked {
    pub refusal: u8,
    pub place: u16,
    pub task: u8,
    pub core: Core,
}

#[repr(C)]
pub struct RowTicked {
    pub refusal: u8,
    pub place: u64,
}

#[repr(C)]
pub struct Listed {
    pub refusal: u8,
    pub place: u16,
    pub length: u16,
}

#[repr(C)]
pub struct Margined {
    pub refusal: u8,
    pub place: u16,
    pub margin: i32,
}

#[repr(C)]
pub struct Moved {
    pub refusal: u8,
    pub place: u16,
    pub length: u16,
}

extern "C" {
    #[cfg(test)]
    fn homvaits_layout() -> u32;
    pub fn homvaits_check(sheet: *const u8, len: usize) -> Checked;
    pub fn homvaits_plan(
        jobs: *const u8,
        len: usize,
        limit: u64,
        start: u64,
        out: *mut u8,
        out_len: usize,
    ) -> Planned;
    pub fn homvaits_start(sheet: *const u8, len: usize, core: u64) -> Step;
    pub fn homvaits_start_list(jobs: *const u8, len: usize) -> Step;
    pub fn homvaits_release(core: Core, task: u64) -> Step;
    pub fn homvaits_finish(core: Core, task: u64) -> Step;
    pub fn homvaits_tick(core: Core) -> Ticked;
    pub fn homvaits_tick_row(
        row: *mut Core,
        count: usize,
        answers: *mut u8,
        answers_length: usize,
    ) -> RowTicked;
    pub fn homvaits_list(sheet: *const u8, len: usize, out: *mut u8, out_len: usize) -> Listed;
    pub fn homvaits_margin(jobs: *const u8, len: usize, task: u64) -> Margined;
    pub fn homvaits_move(sheet: *const u8, len: usize, out: *mut u8, out_len: usize) -> Moved;
}

mod layout {
    use super::{Checked, Core, Listed, Margined, Moved, Planned, RowTicked, Step, Ticked};
    use crate::Task;
    include!("layout.rs");
}

#[cfg(test)]
#[test]
fn the_library_has_the_layout_of_the_crate() {
    // SAFETY: it takes nothing.
    assert_eq!(unsafe { homvaits_layout() }, crate::LAYOUT);
}
