//! The numbers that break a rule, in words.

use super::guess::Guess;
use super::page::{hex, Page};
use super::rules::{Fault, LARGEST_FACTOR, LONGEST_PERIOD};
use super::{figures, header, load};
use crate::fields::{Core, Fields, Part, Task};
use crate::wording::{counted, joined};

/// Why a sheet is refused, and what may have happened. `more` says that the file has more bytes than were read.
pub fn why(page: &mut Page, fields: &Fields, fault: &Fault, guess: &Guess, more: bool) {
    let grouped = fields.layout.is_grouped();
    match fault {
        Fault::Length { layout, found } => {
            page.paragraph(&header::other_length(*layout, *found, more));
        }
        Fault::Order(disorder) => page.paragraph(&disorder.words(fields.layout)),
        Fault::Stretch(stretch) => page.paragraph(&figures::stretch(stretch, grouped)),
        Fault::Chain { core, tasks, at } => figures::chain(page, *core, tasks, *at, grouped),
        Fault::Overload(load) => load::overload(page, load, fields.layout),
        _ => page.paragraph(&sentence(fault, grouped)),
    }
    if let Some(words) = header::guess(fields, guess) {
        page.paragraph(&words);
    }
}

/// The faults that are told in a sentence or two.
fn sentence(fault: &Fault, grouped: bool) -> String {
    match fault {
        Fault::Stub { found: 0 } => "The file is empty. A sheet has 8 bytes at least.".to_owned(),
        Fault::Stub { found } => {
            let found = counted(*found as u64, "byte");
            format!("The file has {found}. A sheet has 8 at least, which are its header.")
        }
        Fault::Mark { found } => header::mark(*found),
        Fault::Version { found } => header::version(*found),
        Fault::Count { layout } => header::counts_out_of_range(*layout),
        Fault::Spare {
            offset,
            value,
            part,
            byte,
        } => spare(*offset, *value, part_name(*part, grouped), *byte),
        Fault::Bare { core, counts } => bare(*core, counts, grouped),
        Fault::Figures(core) => pivot_and_divisor(core),
        _ => task_sentence(fault, grouped),
    }
}

/// The faults of a task that are told in a sentence or two.
fn task_sentence(fault: &Fault, grouped: bool) -> String {
    match fault {
        Fault::Period(task) => format!(
            "The period of {} is {}. A period is 1 to 60,000 ticks.",
            place(task, grouped),
            task.period
        ),
        Fault::Budget(task) => format!(
            "The budget of {} is {}, and its period is {}. A budget is at least 1 tick and at most the period.",
            place(task, grouped),
            task.budget,
            task.period
        ),
        Fault::Stroke(task) => format!(
            "The stroke length of {} is {}, and its budget is {}. A stroke has at least 1 tick and at most the budget.",
            name(task, grouped),
            task.stroke,
            task.budget
        ),
        Fault::Core { task, core, cores } => format!(
            "The record of {} names core {core}. The sheet has {}.",
            name(task, grouped),
            core_numbers(*cores)
        ),
        Fault::Factor(task) => format!(
            "The factor of {} is {}. A factor is 1 to 120,000.",
            name(task, grouped),
            task.factor
        ),
        _ => String::new(),
    }
}

/// A task; in version 2 with its position, by which the refusal names it.
pub fn name(task: &Task, grouped: bool) -> String {
    match grouped {
        false => format!("task {}", task.number),
        true => format!("task {} at position {}", task.number, task.position),
    }
}

/// A task; in version 2 by its position alone, since its old number may be wrong.
fn place(task: &Task, grouped: bool) -> String {
    match grouped {
        false => format!("task {}", task.number),
        true => format!("the task at position {}", task.position),
    }
}

fn part_name(part: Part, grouped: bool) -> String {
    match part {
        Part::Header => "the header".to_owned(),
        Part::Task(position) if grouped => format!("the task record at position {position}"),
        Part::Task(task) => format!("the record of task {task}"),
        Part::Core(core) => format!("the record of core {core}"),
    }
}

fn spare(offset: usize, value: u8, part: String, byte: usize) -> String {
    let value = hex(&[value]);
    format!("Byte {offset} of the sheet is {value}. It is byte {byte} of {part}, a spare byte, which must be 00.")
}

fn core_numbers(cores: u8) -> String {
    let numbers: Vec<u8> = (0..cores).collect();
    match cores {
        0 => "no cores".to_owned(),
        1 => "1 core, core 0".to_owned(),
        _ => format!("{cores} cores, {}", joined(&numbers)),
    }
}

fn bare(core: u8, counts: &[usize], grouped: bool) -> String {
    let why = match grouped {
        false => format!("No task names core {core}"),
        true => format!("The task count of core {core} is 0"),
    };
    let on = |(core, count): (usize, &usize)| match count {
        0 => format!("none on core {core}"),
        _ => format!("{count} on core {core}"),
    };
    let cores: Vec<String> = counts.iter().enumerate().map(on).collect();
    match counts.iter().sum() {
        0 => format!("{why}: the sheet has no tasks."),
        1 => format!("{why}. There is 1 task: {}.", joined(&cores)),
        tasks => format!("{why}. There are {tasks} tasks: {}.", joined(&cores)),
    }
}

fn pivot_and_divisor(core: &Core) -> String {
    let Core {
        number,
        pivot,
        divisor,
        ..
    } = core;
    let mut words = Vec::new();
    if !(1..=LONGEST_PERIOD).contains(pivot) {
        words.push(format!(
            "The pivot of core {number} is {pivot}. A pivot is 1 to 60,000."
        ));
    }
    if !(1..=LARGEST_FACTOR).contains(divisor) {
        words.push(format!(
            "The divisor of core {number} is {divisor}. A divisor is 1 to 120,000."
        ));
    }
    words.join(" ")
}
