//! Strokes, told by calls and answers alone: between two ticks of one stroke
//! there is no tick of another task, and outside strokes the tick goes to the
//! first pending task by priority.

use crate::on_time::{Entry, Promise};
use inputs::Call;
use reference::IDLE;

/// How many strokes of a log had several ticks, how many of them kept a pending
/// task above waiting, and how many a finish ended before their last tick.
#[derive(Clone, Copy, Debug, Default, PartialEq, Eq)]
pub struct Strokes {
    pub long: u64,
    pub held: u64,
    pub finished: u64,
}

/// A stroke that is not over: the place of its task, the ticks that are to come,
/// and whether a task above has waited for it.
#[derive(Clone, Copy)]
struct Stroke {
    place: usize,
    ticks: u64,
    held: bool,
}

/// Check the log of a whole list of calls that began with a fresh state of these
/// tasks, which are in priority order.
pub fn unbroken(log: &[Entry], tasks: &[Promise]) -> Result<Strokes, String> {
    let mut left = vec![0; tasks.len()];
    let mut stroke: Option<Stroke> = None;
    let mut strokes = Strokes::default();
    for entry in log.iter().filter(|entry| entry.refusal == 0) {
        let place_of = |number: u64| tasks.iter().position(|task| task.number == number);
        match entry.call {
            Call::Release(number) => {
                let place = place_of(number).ok_or(format!("{entry:?}: no such task"))?;
                left[place] = tasks[place].budget;
            }
            Call::Finish(number) => {
                let place = place_of(number).ok_or(format!("{entry:?}: no such task"))?;
                left[place] = 0;
                if stroke.is_some_and(|stroke| stroke.place == place) {
                    stroke = None;
                    strokes.finished += 1;
                }
            }
            Call::Tick => {
                let first = left.iter().position(|&ticks| ticks > 0);
                let expected = stroke.map(|stroke| stroke.place).or(first);
                let number = expected.map_or(IDLE as u64, |place| tasks[place].number);
                if entry.task as u64 != number {
                    let of = stroke.map(|stroke| stroke.ticks);
                    return Err(format!("{entry:?}: not {number}, to its stroke {of:?}"));
                }
                let Some(place) = expected else {
                    continue;
                };
                let mut now = stroke.unwrap_or(Stroke {
                    place,
                    ticks: tasks[place].stroke.min(left[place]),
                    held: false,
                });
                strokes.long += (stroke.is_none() && now.ticks > 1) as u64;
                if first < Some(place) && !now.held {
                    now.held = true;
                    strokes.held += 1;
                }
                left[place] -= 1;
                now.ticks -= 1;
                stroke = (now.ticks > 0).then_some(now);
            }
        }
    }
    Ok(strokes)
}

#[cfg(test)]
mod tests {
    use super::*;
    use crate::on_time::log;
    use Call::*;

    const UPPER: Promise = Promise {
        number: 3,
        period: 9,
        budget: 1,
        stroke: 1,
        within: None,
    };
    const LOWER: Promise = Promise {
        number: 0,
        period: 30,
        budget: 5,
        stroke: 3,
        within: None,
    };

    /// Strokes of several ticks, those that were waited for, those finished.
    fn strokes(list: &[(Call, u8)]) -> Option<(u64, u64, u64)> {
        let strokes = unbroken(&log(list), &[UPPER, LOWER]).ok()?;
        Some((strokes.long, strokes.held, strokes.finished))
    }

    /// In the first tick of a stroke of three the upper task is released; then
    /// these calls.
    fn then(more: &[(Call, u8)]) -> Option<(u64, u64, u64)> {
        let first = [(Release(0), 0), (Tick, 0), (Release(3), 0)];
        strokes(&[&first[..], more].concat())
    }

    #[test]
    fn kept_for_its_ticks() {
        assert_eq!(strokes(&[(Release(0), 0), (Tick, 0)]), Some((1, 0, 0)));
        assert_eq!(then(&[]), Some((1, 0, 0)));
        assert_eq!(then(&[(Tick, 0), (Tick, 0), (Tick, 3)]), Some((1, 1, 0)));
        assert_eq!(then(&[(Tick, 0), (Tick, 0), (Tick, 0)]), None);
        assert_eq!(then(&[(Tick, 0), (Tick, 3)]), None);
        assert_eq!(then(&[(Tick, 3)]), None);
        assert_eq!(then(&[(Tick, IDLE)]), None);
    }

    #[test]
    fn cut_to_the_job() {
        let whole = [(Tick, 0), (Tick, 0), (Tick, 3)];
        let rest = |more: &[(Call, u8)]| then(&[&whole[..], more].concat());
        assert_eq!(rest(&[(Tick, 0), (Tick, 0), (Tick, IDLE)]), Some((2, 1, 0)));
        assert_eq!(rest(&[(Tick, 0), (Tick, 0), (Tick, 0)]), None);
        assert_eq!(rest(&[(Tick, 0), (Tick, IDLE)]), None);
    }

    #[test]
    fn ended_by_its_own_finish() {
        assert_eq!(then(&[(Finish(0), 0), (Tick, 3)]), Some((1, 0, 1)));
        assert_eq!(then(&[(Finish(0), 0), (Tick, 0)]), None);
        assert_eq!(then(&[(Finish(3), 0), (Tick, 0)]), Some((1, 0, 0)));
        assert_eq!(then(&[(Finish(3), 0), (Tick, IDLE)]), None);
        assert_eq!(then(&[(Finish(0), 20), (Tick, 0)]), Some((1, 1, 0)));
        assert_eq!(then(&[(Finish(0), 20), (Tick, 3)]), None);
    }

    #[test]
    fn first_by_priority_outside() {
        let both = [(Release(0), 0), (Release(3), 0)];
        let after = |more: &[(Call, u8)]| strokes(&[&both[..], more].concat());
        assert_eq!(after(&[(Tick, 3), (Tick, 0)]), Some((1, 0, 0)));
        assert_eq!(after(&[(Tick, 0)]), None);
        assert_eq!(after(&[(Tick, 9)]), None);
        assert_eq!(strokes(&[(Tick, IDLE)]), Some((0, 0, 0)));
        assert_eq!(strokes(&[(Tick, 3)]), None);
    }
}
