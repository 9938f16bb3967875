//! The answers, with the fields and the layout of the C interface.
//! `refusal` is 0 where nothing is refused; fields that do not apply are 0.

use crate::Refusal;
use std::fmt;

/// A tick's answer when nothing is pending.
pub const IDLE: u8 = 255;

#[repr(C)]
#[derive(Clone, Copy, Debug, Default, PartialEq, Eq)]
pub struct CheckAnswer {
    pub refusal: u8,
    pub place: u16,
    pub tasks: u8,
    pub cores: u8,
}

#[repr(C)]
#[derive(Clone, Copy, Debug, Default, PartialEq, Eq)]
pub struct PlanAnswer {
    pub refusal: u8,
    pub place: u16,
    pub tasks: u8,
    pub cores: u8,
    pub length: u16,
}

/// The answer of both starts, of release and of finish.
#[repr(C)]
#[derive(Clone, Copy, Debug, PartialEq, Eq)]
pub struct CoreAnswer {
    pub refusal: u8,
    pub place: u16,
    pub core: Core,
}

#[repr(C)]
#[derive(Clone, Copy, Debug, PartialEq, Eq)]
pub struct TickAnswer {
    pub refusal: u8,
    pub place: u16,
    pub task: u8,
    pub core: Core,
}

/// The answer of a row; `place` is a position in it.
#[repr(C)]
#[derive(Clone, Copy, Debug, Default, PartialEq, Eq)]
pub struct RowAnswer {
    pub refusal: u8,
    pub place: u64,
}

#[repr(C)]
#[derive(Clone, Copy, Debug, Default, PartialEq, Eq)]
pub struct ListAnswer {
    pub refusal: u8,
    pub place: u16,
    pub length: u16,
}

#[repr(C)]
#[derive(Clone, Copy, Debug, Default, PartialEq, Eq)]
pub struct MarginAnswer {
    pub refusal: u8,
    pub place: u16,
    pub margin: i32,
}

#[repr(C)]
#[derive(Clone, Copy, Debug, Default, PartialEq, Eq)]
pub struct MoveAnswer {
    pub refusal: u8,
    pub place: u16,
    pub length: u16,
}

#[repr(C)]
#[derive(Clone, Copy, Default, PartialEq, Eq)]
pub struct Task {
    pub period: u16,
    pub budget: u16,
    pub age: u16,
    pub left: u16,
    pub number: u8,
    /// The stroke length q.
    pub stroke: u8,
}

/// The state of a core. Any values of its fields are a state.
#[repr(C)]
#[derive(Clone, Copy, PartialEq, Eq)]
pub struct Core {
    pub count: u64,
    pub tasks: [Task; 64],
    /// The number of the task in its stroke and the ticks left to the stroke,
    /// both 0 for none.
    pub stroke_task: u8,
    pub stroke_left: u8,
}

impl Core {
    /// The fresh state of an empty job list.
    pub const EMPTY: Core = Core {
        count: 0,
        tasks: [Task {
            period: 0,
            budget: 0,
            age: 0,
            left: 0,
            number: 0,
            stroke: 0,
        }; 64],
        stroke_task: 0,
        stroke_left: 0,
    };

    /// The tasks in use, for a count in range.
    pub fn used(&self) -> &[Task] {
        &self.tasks[..self.count.min(64) as usize]
    }
}

impl From<Refusal> for CheckAnswer {
    fn from(refusal: Refusal) -> Self {
        CheckAnswer {
            refusal: refusal.number,
            place: refusal.place,
            ..CheckAnswer::default()
        }
    }
}

impl From<Refusal> for PlanAnswer {
    fn from(refusal: Refusal) -> Self {
        PlanAnswer {
            refusal: refusal.number,
            place: refusal.place,
            ..PlanAnswer::default()
        }
    }
}

impl From<Refusal> for ListAnswer {
    fn from(refusal: Refusal) -> Self {
        ListAnswer {
            refusal: refusal.number,
            place: refusal.place,
            ..ListAnswer::default()
        }
    }
}

impl From<Refusal> for MarginAnswer {
    fn from(refusal: Refusal) -> Self {
        MarginAnswer {
            refusal: refusal.number,
            place: refusal.place,
            ..MarginAnswer::default()
        }
    }
}

impl From<Refusal> for MoveAnswer {
    fn from(refusal: Refusal) -> Self {
        MoveAnswer {
            refusal: refusal.number,
            place: refusal.place,
            ..MoveAnswer::default()
        }
    }
}

/// Short, as a state has 64 of them.
impl fmt::Debug for Task {
    fn fmt(&self, f: &mut fmt::Formatter<'_>) -> fmt::Result {
        write!(
            f,
            "#{} p{} e{} q{} age{} left{}",
            self.number, self.period, self.budget, self.stroke, self.age, self.left
        )
    }
}

/// The stroke, and all places up to the last one that is not zero.
impl fmt::Debug for Core {
    fn fmt(&self, f: &mut fmt::Formatter<'_>) -> fmt::Result {
        let shown = (0..64)
            .rev()
            .find(|&i| self.tasks[i] != Task::default())
            .map_or(0, |last| last + 1);
        write!(
            f,
            "count {} stroke #{} left{} {:?}",
            self.count,
            self.stroke_task,
            self.stroke_left,
            &self.tasks[..shown]
        )
    }
}
