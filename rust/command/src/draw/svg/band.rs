//! A band of a core's run: its rows and its axis.

use std::fmt::Write as _;

use super::labels;
use super::layout::{Band, Lanes, Layout, BAR, GAP, LATE, MARGIN, TEXT};
use super::shapes;
use crate::draw::rows::{figures, Cell, Chart, Mark, Row, What};
use crate::log::Answer;

/// The height of an axis with its numbers.
const AXIS: usize = 20;
/// With more rows than these a band has an axis above it too.
const MANY: usize = 12;
/// Calls of one moment that the title of a cross names at most.
const NAMED: usize = 8;

pub struct BandDrawing<'a> {
    pub out: &'a mut String,
    pub layout: &'a Layout,
    pub band: Band,
    /// The core, as the data of each mark name it.
    pub core: &'a str,
}

impl BandDrawing<'_> {
    /// Draws the band below this height, and answers how far down it goes.
    pub fn draw(&mut self, chart: &Chart, y: usize) -> usize {
        let above = chart.rows.len() > MANY;
        let top = y + if above { AXIS } else { 0 };
        let mut bottom = top;
        let mut lanes: Vec<Lanes> = Vec::new();
        for row in &chart.rows {
            lanes.push(Lanes::of(row, bottom));
            bottom = lanes.last().map_or(top, |lanes| lanes.bottom);
        }
        let idle = Lanes::flat(bottom);
        let bottom = idle.bottom;
        lanes.push(idle);
        let (from, to) = (self.band.first + 1, self.band.last);
        let _ = writeln!(
            self.out,
            r#"<g class="band" data-from="{from}" data-to="{to}">"#
        );
        self.grid(&lanes, top, bottom);
        let rows = chart.rows.iter().zip(&lanes);
        rows.for_each(|(row, lanes)| self.row(row, lanes));
        self.idle(&chart.idle, &idle);
        self.axis(bottom, bottom + 14, bottom + 4);
        if above {
            self.axis(top, top - 7, top - 4);
        }
        self.out.push_str("</g>\n");
        bottom + AXIS
    }

    /// Lines down at the moments, and lines across between the rows.
    fn grid(&mut self, lanes: &[Lanes], top: usize, bottom: usize) {
        let moments = |step: usize| {
            let first = self.band.first.next_multiple_of(step);
            (first..=self.band.last).step_by(step)
        };
        let down = |moment| format!("M{} {top}V{bottom}", self.band.x(moment, self.layout));
        let grid: String = moments(self.layout.grid()).map(down).collect();
        let steps: String = moments(self.layout.numbers()).map(down).collect();
        let right = self.band.x(self.band.last, self.layout);
        let across = |lanes: &Lanes| format!("M{MARGIN} {}H{right}", lanes.top);
        let rules: String = lanes.iter().map(across).collect();
        for (class, path) in [("grid", grid), ("step", steps), ("rule", rules)] {
            let _ = writeln!(self.out, r#"<path class="{class}" d="{path}"/>"#);
        }
    }

    /// A line with the numbers of moments, the lower edge of these, and the end of the strokes from the line to them.
    fn axis(&mut self, y: usize, numbers: usize, strokes: usize) {
        let (left, right) = (self.layout.left, self.band.x(self.band.last, self.layout));
        let moments = self.band.numbered(self.layout);
        let stroke = |&moment| format!("M{} {y}V{strokes}", self.band.x(moment, self.layout));
        let strokes: String = moments.iter().map(stroke).collect();
        let _ = writeln!(
            self.out,
            r#"<path class="axis" d="M{left} {y}H{right}{strokes}"/>"#
        );
        for moment in moments {
            let x = self.band.x(moment, self.layout);
            shapes::text(self.out, "moment", (x, numbers), &moment.to_string(), "");
        }
    }

    fn row(&mut self, row: &Row, lanes: &Lanes) {
        match row.task {
            Some(task) if self.band.first == 0 => {
                self.label(&row.label(), lanes.label);
                let at = (MARGIN, lanes.label + 12);
                shapes::text(self.out, "figures", at, &figures(task), "");
            }
            _ => self.label(&row.label(), lanes.label_alone),
        }
        let number = row.task.map(|task| task.number);
        let bar = (lanes.bar, BAR);
        let around = (lanes.top + GAP, LATE);
        let pending = |cell: &Cell| cell.pending && cell.run.is_none() && !cell.late;
        self.bars("pending", row, bar, |cell| number.filter(|_| pending(cell)));
        self.bars("late", row, around, |cell| number.filter(|_| cell.late));
        self.late_here(row, around);
        self.bars("run", row, bar, |cell| cell.run);
        let band = self.band;
        let marks = row.marks.iter().filter(|mark| band.holds(mark));
        marks.clone().for_each(|mark| self.mark(mark, lanes));
        let refused = marks.filter(|mark| mark.is_refused());
        let refused: Vec<&Mark> = refused.collect();
        let moments = refused.chunk_by(|mark, next| mark.moment == next.moment);
        moments.for_each(|marks| self.crosses(marks, lanes));
    }

    fn label(&mut self, label: &str, y: usize) {
        let short = labels::shortened(label, TEXT, self.layout.labels);
        let title = if short == label { "" } else { label };
        shapes::text(self.out, "label", (MARGIN, y), &short, title);
    }

    /// A bar wherever neighbouring ticks have the same number.
    fn bars(
        &mut self,
        class: &str,
        row: &Row,
        (y, height): (usize, usize),
        key: impl Fn(&Cell) -> Option<u8>,
    ) {
        let core = self.core;
        for (from, to, number) in self.spans(&row.cells, key) {
            let data = format!(
                r#" data-core="{core}" data-task="{number}" data-from="{}" data-to="{to}""#,
                from + 1
            );
            self.bar(class, (from, to), (y, height), &data);
        }
    }

    fn idle(&mut self, idle: &[bool], lanes: &Lanes) {
        self.label("idle", lanes.label_alone);
        let core = self.core;
        for (from, to, ()) in self.spans(idle, |&idle| idle.then_some(())) {
            let from_tick = from + 1;
            let data = format!(r#" data-core="{core}" data-from="{from_tick}" data-to="{to}""#);
            self.bar("idle", (from, to), (lanes.bar, BAR), &data);
        }
    }

    fn bar(
        &mut self,
        class: &str,
        (from, to): (usize, usize),
        (y, height): (usize, usize),
        data: &str,
    ) {
        let x = self.band.x(from, self.layout);
        let width = (to - from) * self.layout.tick;
        shapes::bar(self.out, class, (x, y), (width, height), data);
    }

    /// The moments between which neighbouring ticks of this band have one key, and the key.
    fn spans<T, K: PartialEq>(
        &self,
        cells: &[T],
        key: impl Fn(&T) -> Option<K>,
    ) -> Vec<(usize, usize, K)> {
        let mut spans = Vec::new();
        let mut from = self.band.first;
        let cells = cells.get(from..self.band.last).unwrap_or_default();
        for cells in cells.chunk_by(|cell, next| key(cell) == key(next)) {
            let to = from + cells.len();
            if let Some(key) = cells.first().and_then(&key) {
                spans.push((from, to, key));
            }
            from = to;
        }
        spans
    }

    /// Late jobs that no tick follows: a narrow bar at the moment.
    fn late_here(&mut self, row: &Row, (y, height): (usize, usize)) {
        let band = self.band;
        let here = |mark: &&Mark| mark.what == What::LateHere && band.holds(mark);
        for mark in row.marks.iter().filter(here) {
            let x = band.x(mark.moment, self.layout) - 2;
            let data = self.data(mark);
            shapes::bar(self.out, "late", (x, y), (4, height), &data);
        }
    }

    fn mark(&mut self, mark: &Mark, lanes: &Lanes) {
        let at = (self.band.x(mark.moment, self.layout), lanes.bar);
        let half = self.layout.half();
        let data = self.data(mark);
        match mark.what {
            What::Release => shapes::release(self.out, "release", at, half, &data),
            What::Due { .. } => shapes::due(self.out, "due", at, half, &data),
            What::Finish => shapes::finish(self.out, "finish", at, half, &data),
            What::Refused(..) | What::LateHere => {}
        }
    }

    /// The refused calls of a moment: crosses on one point, of which the last, on top, names all of them.
    fn crosses(&mut self, marks: &[&Mark], lanes: &Lanes) {
        for (index, mark) in marks.iter().enumerate() {
            let title = match index + 1 == marks.len() {
                true => named(marks),
                false => refused(mark),
            };
            let at = (self.band.x(mark.moment, self.layout), lanes.cross);
            let data = self.data(mark);
            let half = self.layout.half();
            shapes::cross(self.out, "refused", at, half, (&data, &title));
        }
    }

    fn data(&self, mark: &Mark) -> String {
        let mut data = format!(r#" data-core="{}""#, self.core);
        if let Some(number) = mark.number {
            let _ = write!(data, r#" data-task="{number}""#);
        }
        let _ = write!(data, r#" data-moment="{}""#, mark.moment);
        if let What::Refused(_, refusal, _) = mark.what {
            let _ = write!(data, r#" data-refusal="{refusal}""#);
        }
        data
    }
}

/// A refused call, such as `release 3: refused 18 place 3`.
fn refused(mark: &Mark) -> String {
    let What::Refused(call, refusal, place) = mark.what else {
        return String::new();
    };
    let call = call.text();
    format!("{call}: {}", Answer::Refused(refusal, place).text())
}

/// Refused calls, a line each.
fn named(marks: &[&Mark]) -> String {
    let mut lines: Vec<String> = marks.iter().take(NAMED).map(|mark| refused(mark)).collect();
    if marks.len() > NAMED {
        lines.push(format!("and {} more", marks.len() - NAMED));
    }
    lines.join("\n")
}
