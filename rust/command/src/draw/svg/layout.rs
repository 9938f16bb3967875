//! Where things stand in a picture, in pixels.

use super::labels;
use crate::draw::rows::{self, Mark, Row, What};
use crate::log::Log;

pub const MARGIN: usize = 16;
/// Font sizes.
pub const TEXT: usize = 12;
pub const SMALL: usize = 10;
/// What the ticks of a band take at most.
const BAND: usize = 960;
/// How wide a tick may be.
const NARROW: usize = 4;
const WIDE: usize = 24;
/// The narrowest picture: its legend has room.
const NARROWEST: usize = 920;
/// Room for labels.
const LABELS: std::ops::RangeInclusive<usize> = 80..=190;

/// The height of a bar, and of an arrow above or below it.
pub const BAR: usize = 12;
pub const ARROW: usize = 6;
/// Between a bar and an arrow, and around both.
pub const GAP: usize = 1;
/// The height of the bar of a late job, which is behind the bar and the arrows.
pub const LATE: usize = ARROW + GAP + BAR + GAP + ARROW;
/// The height of the crosses of a row, and of a row with nothing but these or idle ticks.
const CROSSES: usize = 8;
const FLAT: usize = 16;

/// What all cores of a picture share: one scale.
pub struct Layout {
    /// The width of a tick.
    pub tick: usize,
    /// The room for labels.
    pub labels: usize,
    /// Where the bands begin.
    pub left: usize,
    pub width: usize,
}

impl Layout {
    pub fn of(logs: &[Log]) -> Layout {
        let ticks = logs.iter().map(Log::ticks).max().unwrap_or(0);
        let tick = (BAND / ticks.max(1)).clamp(NARROW, WIDE);
        let tasks = logs.iter().flat_map(|log| &log.tasks);
        let widths = tasks.map(|task| {
            labels::width(&task.label(), TEXT).max(labels::width(&rows::figures(task), SMALL))
        });
        let labels = widths.max().unwrap_or(0);
        let labels = labels.clamp(*LABELS.start(), *LABELS.end());
        let left = MARGIN + labels + 10;
        let band = ticks.min(BAND / tick) * tick;
        let width = (left + band + MARGIN + 8).max(NARROWEST);
        Layout {
            tick,
            labels,
            left,
            width,
        }
    }

    /// The bands of so many ticks: one at least.
    pub fn bands(&self, ticks: usize) -> impl Iterator<Item = Band> {
        let most = BAND / self.tick;
        (0..ticks.max(1)).step_by(most).map(move |first| Band {
            first,
            last: (first + most).min(ticks),
            ticks,
        })
    }

    /// Half the width of an arrow.
    pub fn half(&self) -> usize {
        (self.tick / 2).clamp(3, 4)
    }

    /// How many ticks there are from one number of the axis to the next.
    pub fn numbers(&self) -> usize {
        [1, 2, 5]
            .into_iter()
            .find(|step| step * self.tick >= 40)
            .unwrap_or(10)
    }

    /// How many there are from one line of the grid to the next.
    pub fn grid(&self) -> usize {
        match self.tick >= 12 {
            true => 1,
            false => 5,
        }
    }
}

/// The ticks that stand beside each other, from one moment to another.
#[derive(Clone, Copy, Debug)]
pub struct Band {
    pub first: usize,
    pub last: usize,
    /// Those of the whole run.
    pub ticks: usize,
}

impl Band {
    /// Where a moment of this band is.
    pub fn x(&self, moment: usize, layout: &Layout) -> usize {
        layout.left + moment.saturating_sub(self.first) * layout.tick
    }

    /// Whether a mark stands in this band. Where one band ends and the next begins, what ends stands at the end, and a call that
    /// precedes the next tick at the beginning.
    pub fn holds(&self, mark: &Mark) -> bool {
        let moment = mark.moment;
        match mark.what {
            What::Release | What::Refused(..) => {
                (self.first..self.last).contains(&moment)
                    || (moment == self.last && self.last == self.ticks)
            }
            What::Finish | What::Due { .. } | What::LateHere => {
                (self.first < moment && moment <= self.last) || (moment == 0 && self.first == 0)
            }
        }
    }

    /// The moments with numbers: those at whole steps, and the last one where it has room.
    pub fn numbered(&self, layout: &Layout) -> Vec<usize> {
        let step = layout.numbers();
        let first = self.first.next_multiple_of(step);
        let mut moments: Vec<usize> = (first..=self.last).step_by(step).collect();
        let room = 8 + labels::width(&self.last.to_string(), SMALL);
        let before = moments.last().map_or(0, |&moment| moment);
        if (self.last - before) * layout.tick >= room {
            moments.push(self.last);
        }
        moments
    }
}

/// What of a row stands how high: above the bars arrows down, below them arrows up, and below these crosses.
#[derive(Clone, Copy)]
pub struct Lanes {
    pub top: usize,
    pub bottom: usize,
    /// The top of the bars, and the middle of the crosses.
    pub bar: usize,
    pub cross: usize,
    /// The line of a label: with figures below it, and alone.
    pub label: usize,
    pub label_alone: usize,
}

impl Lanes {
    /// A row has the lanes that the whole run needs, so that it is as high in each band.
    pub fn of(row: &Row, top: usize) -> Lanes {
        if row.is_calls_alone() {
            return Lanes::flat(top);
        }
        let below = top + LATE + 2 * GAP;
        let bottom = match row.marks.iter().any(Mark::is_refused) {
            true => below + CROSSES,
            false => below,
        };
        Lanes {
            top,
            bottom,
            bar: top + GAP + ARROW + GAP,
            cross: below + CROSSES / 2 - GAP,
            label: top + 12,
            label_alone: top + 18,
        }
    }

    /// A row of crosses or of idle ticks alone.
    pub fn flat(top: usize) -> Lanes {
        Lanes {
            top,
            bottom: top + FLAT,
            bar: top + (FLAT - BAR) / 2,
            cross: top + FLAT / 2,
            label: top + 12,
            label_alone: top + 12,
        }
    }
}
