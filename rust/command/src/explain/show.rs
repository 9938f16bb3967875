//! Every field of a sheet, as far as its bytes go.

use super::header;
use super::page::{hex, printable, Page};
use crate::fields::{Fields, Task, CORE_SIZE, HEADER_SIZE, TASK_SIZE};
use crate::table::{Side, Table};
use crate::wording::counted;

/// Bytes past the last record that are shown at most, and on each line.
const PAST: usize = 256;
const A_LINE: usize = 16;

/// The rule that a sheet breaks, if it breaks one, and the offsets of the bytes that the refusal names.
#[derive(Default)]
pub struct Marks {
    pub rule: Option<u8>,
    pub offsets: Vec<usize>,
}

impl Marks {
    /// What stands behind a row of the bytes from `at` on: a mark, or that the row is cut.
    fn remark(&self, fields: &Fields, at: usize, size: usize) -> String {
        let there = bytes_of(fields, at, size).len();
        let named = |offset: &usize| (at..at + size).contains(offset);
        match self.rule {
            Some(rule) if self.offsets.iter().any(named) => format!("<-- rule {rule}"),
            _ if there < size => format!("cut: {there} of {size} bytes"),
            _ => String::new(),
        }
    }
}

/// The bytes of a part, as far as they are there.
fn bytes_of<'a>(fields: &Fields<'a>, at: usize, size: usize) -> &'a [u8] {
    let end = fields.bytes.len().min(at + size);
    fields.bytes.get(at..end).unwrap_or_default()
}

/// A cell that is left empty where there is no value.
fn cell<T: ToString>(value: Option<T>) -> String {
    value.map_or_else(String::new, |value| value.to_string())
}

/// Every field. `more` says that the file has more bytes than were read.
pub fn fields(page: &mut Page, fields: &Fields, marks: &Marks, more: bool) {
    if !fields.bytes.is_empty() {
        page.section("header");
        page.table(&header_table(fields, marks));
    }
    if let Some(note) = header::reading(fields) {
        page.paragraph(&note);
    }
    let tasks = reached(fields, fields.layout.tasks, |task| {
        fields.layout.task_offset(task)
    });
    if tasks > 0 {
        page.section("tasks");
        page.table(&task_table(fields, tasks, marks));
        if fields.tasks().any(|task| fields.within(&task).is_some()) {
            page.paragraph(terms(marks));
        }
    }
    let cores = reached(fields, fields.layout.cores, |core| {
        fields.layout.core_offset(core)
    });
    if cores > 0 {
        page.section("cores");
        page.table(&core_table(fields, cores, marks));
    }
    missing(page, fields, tasks, cores);
    past(page, fields, more);
}

fn terms(marks: &Marks) -> &'static str {
    match marks.rule {
        None => "T is the accelerated period, pivot x factor / divisor, and within its whole part.",
        Some(_) => {
            "T is the accelerated period, pivot x factor / divisor, and within its whole part. A refused sheet promises nothing by them."
        }
    }
}

/// How many records begin before the bytes end.
fn reached(fields: &Fields, count: u8, offset: impl Fn(u8) -> usize) -> u8 {
    let beyond = |record: &u8| offset(*record) >= fields.bytes.len();
    (0..count).find(beyond).unwrap_or(count)
}

fn header_table(fields: &Fields, marks: &Marks) -> Table {
    let mut table = Table::new(&[
        ("byte", Side::Right),
        ("bytes", Side::Left),
        ("field", Side::Left),
        ("value", Side::Left),
        ("", Side::Left),
    ]);
    let rows = [
        (
            0,
            3,
            "mark",
            cell(fields.mark().and_then(|mark| printable(&mark))),
        ),
        (3, 2, "version", cell(fields.version())),
        (5, 1, "tasks", cell(fields.byte(5))),
        (6, 1, "cores", cell(fields.byte(6))),
        (7, 1, "spare", hex(bytes_of(fields, 7, 1))),
    ];
    for (at, size, field, value) in rows {
        if at < fields.bytes.len() {
            table.row(vec![
                at.to_string(),
                hex(bytes_of(fields, at, size)),
                field.to_owned(),
                value,
                marks.remark(fields, at, size),
            ]);
        }
    }
    table
}

fn task_table(fields: &Fields, count: u8, marks: &Marks) -> Table {
    let mut table = Table::new(&[
        ("byte", Side::Right),
        ("bytes", Side::Left),
        ("position", Side::Right), // version 2
        ("task", Side::Right),     // versions 1 and 3
        ("period", Side::Right),
        ("budget", Side::Right),
        ("core", Side::Right),   // versions 1 and 3
        ("task", Side::Right),   // version 2
        ("spare", Side::Right),  // versions 1 and 2
        ("stroke", Side::Right), // version 3
        ("factor", Side::Right),
        ("core", Side::Right), // version 2
        ("T", Side::Right),
        ("within", Side::Right),
        ("", Side::Left),
    ]);
    for position in 0..count {
        table.row(task_row(fields, position, marks));
    }
    table
}

/// The cells of a task record, as far as its bytes go.
fn task_row(fields: &Fields, position: u8, marks: &Marks) -> Vec<String> {
    let at = fields.layout.task_offset(position);
    let task: Option<Task> = fields.task(position);
    let place = Some(position);
    let named = fields.byte(at + 4);
    let core = task.and_then(|task| task.core);
    let by_number = |value: Option<u8>| cell(value.filter(|_| !fields.layout.is_grouped()));
    let by_core = |value: Option<u8>| cell(value.filter(|_| fields.layout.is_grouped()));
    let (spare, stroke) = match fields.layout.has_strokes() {
        false => (hex(bytes_of(fields, at + 5, 1)), String::new()),
        true => (String::new(), cell(fields.byte(at + 5))),
    };
    vec![
        at.to_string(),
        hex(bytes_of(fields, at, TASK_SIZE)),
        by_core(place),
        by_number(place),
        cell(fields.two(at)),
        cell(fields.two(at + 2)),
        by_number(named),
        by_core(named),
        spare,
        stroke,
        cell(fields.four(at + 6)),
        by_core(core),
        cell(task.and_then(|task| fields.accelerated(&task))),
        cell(task.and_then(|task| fields.within(&task))),
        marks.remark(fields, at, TASK_SIZE),
    ]
}

fn core_table(fields: &Fields, count: u8, marks: &Marks) -> Table {
    let mut table = Table::new(&[
        ("byte", Side::Right),
        ("bytes", Side::Left),
        ("core", Side::Right),
        ("pivot", Side::Right),
        ("tasks", Side::Right), // version 2
        ("spare", Side::Right),
        ("divisor", Side::Right),
        ("", Side::Left),
    ]);
    for number in 0..count {
        let at = fields.layout.core_offset(number);
        let (count, spare) = match fields.layout.is_grouped() {
            false => (None, bytes_of(fields, at + 2, 2)),
            true => (fields.byte(at + 2), bytes_of(fields, at + 3, 1)),
        };
        table.row(vec![
            at.to_string(),
            hex(bytes_of(fields, at, CORE_SIZE)),
            number.to_string(),
            cell(fields.two(at)),
            cell(count),
            hex(spare),
            cell(fields.four(at + 4)),
            marks.remark(fields, at, CORE_SIZE),
        ]);
    }
    table
}

/// Names the records that the bytes do not come to.
fn missing(page: &mut Page, fields: &Fields, tasks: u8, cores: u8) {
    let layout = fields.layout;
    let noun = match layout.is_grouped() {
        false => "task",
        true => "position",
    };
    let records = [
        span(noun, tasks, layout.tasks),
        span("core", cores, layout.cores),
    ];
    let records: Vec<String> = records.into_iter().flatten().collect();
    if !records.is_empty() {
        page.section("missing");
        page.paragraph(&format!(
            "The bytes end here: there is nothing of {}.",
            records.join(", and of ")
        ));
    }
}

/// Records from one on, to before another: `task 3`, `tasks 3 to 5`.
fn span(noun: &str, from: u8, to: u8) -> Option<String> {
    match to.checked_sub(from)? {
        0 => None,
        1 => Some(format!("{noun} {from}")),
        2 => Some(format!("{noun}s {from} and {}", to - 1)),
        _ => Some(format!("{noun}s {from} to {}", to - 1)),
    }
}

/// The bytes behind the last record.
fn past(page: &mut Page, fields: &Fields, more: bool) {
    let start = fields.layout.length();
    let bytes = fields.bytes.get(start..).unwrap_or_default();
    if bytes.is_empty() {
        return;
    }
    page.section(match start {
        HEADER_SIZE => "behind the header",
        _ => "behind the last record",
    });
    let shown = &bytes[..bytes.len().min(PAST)];
    let mut table = Table::new(&[("byte", Side::Right), ("bytes", Side::Left)]);
    for (at, line) in (start..).step_by(A_LINE).zip(shown.chunks(A_LINE)) {
        table.row(vec![at.to_string(), hex(line)]);
    }
    page.table(&table);
    let rest = counted((bytes.len() - shown.len()) as u64, "byte");
    match (more, bytes.len() > PAST) {
        (true, _) => page.line(&format!("and over {rest} more")),
        (false, true) => page.line(&format!("and {rest} more")),
        (false, false) => {}
    }
}
