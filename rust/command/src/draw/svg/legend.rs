//! What each mark of a picture means.

use super::layout::{ARROW, BAR, GAP, MARGIN};
use super::shapes;

/// From one entry to the next below it, and to the one beside it.
const STEP: usize = 20;
const COLUMN: usize = 430;
const ROWS: usize = 4;
/// From one line below the entries to the next.
const LINE: usize = 18;

const ENTRIES: [(&str, &str); 8] = [
    ("release", "a job of the task is released"),
    ("due", "its job must have ended by this moment"),
    ("run", "the task runs"),
    ("pending", "its job is pending and does not run"),
    ("late", "its job must have ended and has not: it is late"),
    ("finish", "its job is finished before its budget is used"),
    ("refused", "a call is refused; point at it for its number"),
    ("idle", "no task runs"),
];

const LINES: [&str; 2] = [
    "The numbers of the axis are moments: how many ticks have passed. Other calls are refused ticks, and calls on numbers that no task has.",
    "p is the period of a task, e its budget, and w within how many ticks of its release a job must have ended.",
];

/// Said where some stroke has more than one tick.
const STROKES: &str =
    "q is the stroke length of a task: a job that gets a tick keeps the core for so many ticks, or until it ends.";

/// Draws it below this height, and answers how far down it goes.
pub fn draw(out: &mut String, top: usize, strokes: bool) -> usize {
    for (index, (mark, text)) in ENTRIES.into_iter().enumerate() {
        let x = MARGIN + index / ROWS * COLUMN;
        let y = top + index % ROWS * STEP;
        sample(out, mark, (x, y));
        shapes::text(out, "key", (x + 34, y + 12), text, "");
    }
    let below = top + ROWS * STEP;
    let lines = LINES.into_iter().chain(strokes.then_some(STROKES));
    let mut y = below;
    for line in lines {
        shapes::text(out, "key", (MARGIN, y + 14), line, "");
        y += LINE;
    }
    y
}

/// A mark of the picture in a box of 24 by 16 pixels.
fn sample(out: &mut String, mark: &str, (x, y): (usize, usize)) {
    let middle = x + 12;
    let class = format!("key-{mark}");
    match mark {
        "release" => shapes::release(out, &class, (middle, y + 4 - GAP - BAR), 4, ""),
        "due" => shapes::due(out, &class, (middle, y + 5 + ARROW + GAP), 4, ""),
        "finish" => shapes::finish(out, &class, (middle, y + 2), 4, ""),
        "refused" => shapes::cross(out, &class, (middle, y + 8), 3, ("", "")),
        "late" => shapes::bar(out, &class, (x, y), (24, 16), ""),
        _ => shapes::bar(out, &class, (x, y + 2), (24, BAR), ""),
    }
}
