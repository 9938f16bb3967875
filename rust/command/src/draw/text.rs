//! A run drawn with letters: a column for each tick, wrapped into bands that fit the width.

mod flow;
#[cfg(test)]
mod tests;

use super::rows::{figures, has_strokes, Cell, Chart, Row, What, OTHER};
use crate::log::Log;
use flow::{flow, legend};

/// The fewest columns that are taken.
const NARROWEST: usize = 40;
/// The most that a label takes.
const LABEL: usize = 26;
/// From one number of the axis to the next.
const STEP: usize = 10;

pub fn text(logs: &[Log], width: usize) -> String {
    let width = width.max(NARROWEST);
    let columns = Columns::of(logs, width);
    let mut lines = Vec::new();
    for log in logs {
        let chart = Chart::of(log);
        lines.extend(flow("", chart.heading().split(' '), " ", width));
        columns.chart(&mut lines, &chart);
    }
    let strokes = has_strokes(logs);
    lines.extend(legend(columns.figures, strokes, width));
    lines
        .iter()
        .map(|line| format!("{}\n", line.trim_end()))
        .collect()
}

/// How the columns are shared out.
struct Columns {
    width: usize,
    /// How many a label has, with two blanks behind it.
    label: usize,
    /// How many ticks a band has at most. One more column is left for what comes after the last tick.
    ticks: usize,
    /// Whether there is room for the figures of the tasks.
    figures: bool,
}

impl Columns {
    fn of(logs: &[Log], width: usize) -> Columns {
        let room = (width * 2 / 5).min(LABEL);
        let tasks = || logs.iter().flat_map(|log| &log.tasks);
        let longest = tasks().map(|task| task.label().chars().count()).max();
        let widest = tasks().map(|task| figures(task).len()).max();
        let widest = widest.filter(|&widest| widest <= room);
        let label = longest.max(widest).unwrap_or(0).max(OTHER.len()).min(room) + 2;
        let room = width - label - 1;
        let ticks = match logs.iter().map(Log::ticks).max() {
            Some(ticks) if ticks > room => room / STEP * STEP,
            _ => room,
        };
        Columns {
            width,
            label,
            ticks,
            figures: widest.is_some(),
        }
    }

    /// Adds the bands of a chart, and a blank line behind each.
    fn chart(&self, lines: &mut Vec<String>, chart: &Chart) {
        let marks: Vec<Vec<u8>> = chart
            .rows
            .iter()
            .map(|row| marks(row, chart.ticks))
            .collect();
        for first in (0..chart.ticks.max(1)).step_by(self.ticks) {
            let band = Band {
                columns: self,
                first,
                last: (first + self.ticks).min(chart.ticks),
                ticks: chart.ticks,
            };
            lines.push(band.axis());
            let rows = chart.rows.iter().zip(&marks);
            rows.for_each(|(row, marks)| band.row(lines, row, marks));
            lines.push(band.idle(&chart.idle));
            lines.push(String::new());
        }
    }
}

/// What a moment has in a row.
const RELEASE: u8 = 1;
const DUE: u8 = 2;
const MISSED: u8 = 4;
const FINISH: u8 = 8;
const REFUSED: u8 = 16;

/// Of each moment, the last one included, what it has.
fn marks(row: &Row, ticks: usize) -> Vec<u8> {
    let mut moments = vec![0; ticks + 1];
    for mark in &row.marks {
        let bit = match mark.what {
            What::Release => RELEASE,
            What::Due { missed: false } => DUE,
            What::Due { missed: true } => MISSED,
            What::Finish => FINISH,
            What::Refused(..) => REFUSED,
            // its due moment is missed
            What::LateHere => 0,
        };
        if let Some(moment) = moments.get_mut(mark.moment) {
            *moment |= bit;
        }
    }
    moments
}

/// The ticks that stand beside each other, from one moment to another.
struct Band<'a> {
    columns: &'a Columns,
    first: usize,
    last: usize,
    ticks: usize,
}

impl Band<'_> {
    /// The moments before the ticks of this band; of the last band also the one after them.
    fn moments(&self) -> std::ops::Range<usize> {
        self.first..self.last + usize::from(self.last == self.ticks)
    }

    /// Numbers whose first digits stand at the tick that follows the moment.
    fn axis(&self) -> String {
        let mut line = " ".repeat(self.columns.label);
        for moment in self.moments() {
            let column = self.columns.label + moment - self.first;
            let number = moment.to_string();
            let is_last = moment == self.ticks && line.len() < column;
            let fits = column + number.len() <= self.columns.width;
            if (moment % STEP == 0 || is_last) && fits {
                line = format!("{line:<column$}{number}");
            }
        }
        line
    }

    /// The ticks of a row, its marks below them, and below these its finishes and refused calls.
    fn row(&self, lines: &mut Vec<String>, row: &Row, marks: &[u8]) {
        let cells = row.cells.get(self.first..self.last).unwrap_or_default();
        let marks = marks.get(self.moments()).unwrap_or_default();
        let figures = match row.task {
            Some(task) if self.columns.figures && self.first == 0 => figures(task),
            _ => String::new(),
        };
        let label = row.label();
        if row.is_calls_alone() {
            lines.push(self.line(&label, marks.iter().map(call)));
            return;
        }
        lines.push(self.line(&label, cells.iter().map(tick)));
        let below = self.line(&figures, marks.iter().map(mark));
        let calls = self.line("", marks.iter().map(call));
        let below = [below, calls].into_iter();
        lines.extend(below.filter(|line| !line.trim_end().is_empty()));
    }

    fn idle(&self, idle: &[bool]) -> String {
        let idle = idle.get(self.first..self.last).unwrap_or_default();
        self.line(
            "idle",
            idle.iter().map(|&idle| if idle { '=' } else { '.' }),
        )
    }

    fn line(&self, label: &str, columns: impl Iterator<Item = char>) -> String {
        let width = self.columns.label;
        let label = shortened(label, width - 2);
        format!("{label:<width$}{}", columns.collect::<String>())
    }
}

fn tick(cell: &Cell) -> char {
    match (cell.run, cell.late) {
        (Some(_), true) => '%',
        (Some(_), false) => '#',
        (None, true) => '!',
        (None, false) if cell.pending => '-',
        _ => '.',
    }
}

fn mark(marks: &u8) -> char {
    let has = |mark| marks & mark != 0;
    match (has(RELEASE), has(MISSED), has(DUE)) {
        (true, true, _) => '*',
        (false, true, _) => '!',
        (true, _, true) => '+',
        (true, _, false) => '^',
        (false, _, true) => '|',
        _ => ' ',
    }
}

fn call(marks: &u8) -> char {
    match (marks & FINISH != 0, marks & REFUSED != 0) {
        (true, true) => '&',
        (true, false) => 'o',
        (false, true) => 'x',
        _ => ' ',
    }
}

/// A label in so many columns, of letters that each take one.
fn shortened(label: &str, room: usize) -> String {
    let one_column = |letter: char| match letter {
        '\u{ad}' | '\u{300}'..='\u{36f}' | '\u{483}'..='\u{489}' => '?',
        ' '..='~' | '\u{a1}'..='\u{52f}' => letter,
        _ => '?',
    };
    let label: Vec<char> = label.chars().map(one_column).collect();
    match label.get(..room.saturating_sub(2)) {
        Some(front) if label.len() > room => {
            let front: String = front.iter().collect();
            format!("{}..", front.trim_end())
        }
        _ => label.iter().collect(),
    }
}
