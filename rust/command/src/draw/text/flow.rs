//! Lines of words and entries that are wrapped at a width, and the legend of such.

/// A head and entries behind it, wrapped; the entries stand below each other.
pub fn flow<'a>(
    head: &str,
    entries: impl IntoIterator<Item = &'a str>,
    between: &str,
    width: usize,
) -> Vec<String> {
    let mut lines = Vec::new();
    let mut line = head.to_owned();
    let mut between_next = "";
    for entry in entries {
        if !between_next.is_empty() && line.len() + between.len() + entry.len() > width {
            lines.push(line);
            line = " ".repeat(head.len());
            between_next = "";
        }
        line += between_next;
        line += entry;
        between_next = between;
    }
    lines.push(line);
    lines
}

const TICKS: [&str; 6] = [
    "# the task runs",
    "- its job is pending",
    "% it runs, late",
    "! its job is pending, late",
    ". neither",
    "= no task runs",
];
const MARKS: [&str; 5] = [
    "^ released",
    "| must have ended",
    "! must have ended and had not",
    "+ both ^ and |",
    "* both ^ and !",
];
const CALLS: [&str; 3] = [
    "o finished, with budget left",
    "x refused",
    "& both o and x",
];
const FIGURES: [&str; 4] = [
    "p period",
    "e budget",
    "w ticks a job has to end in",
    "q ticks of a stroke",
];
const AXIS: &str = "A number on the axis is how many ticks come before its column. \
                    A mark or a call comes before the tick of its column.";

/// What each letter of a picture means, of strokes where there are some.
pub fn legend(figures: bool, strokes: bool, width: usize) -> Vec<String> {
    let entries =
        |head: &str, entries: &[&'static str]| flow(head, entries.iter().copied(), "   ", width);
    let mut lines = entries("ticks    ", &TICKS);
    lines.extend(entries("marks    ", &MARKS));
    lines.extend(entries("calls    ", &CALLS));
    if figures {
        let shown = FIGURES.len() - usize::from(!strokes);
        lines.extend(entries("figures  ", &FIGURES[..shown]));
    }
    lines.extend(flow("", AXIS.split(' '), " ", width));
    lines
}
