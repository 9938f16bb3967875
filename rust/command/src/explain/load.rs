//! The load of a core, task by task.

use super::page::{unbroken, Page};
use super::utilization;
use super::why::name;
use crate::fields::{Layout, Load, Share, Task};
use crate::table::{Side, Table};
use crate::wording::counted;

/// What the columns of the table say.
const TERMS: &str = "\
    In order of priority each task adds e x D x (L / M) to the sum, where e is its budget, M its factor, D the divisor of the core and L \
    the factor of the last task. The sum may be as large as the capacity Q x L, where Q is the pivot of the core.";

/// What the further columns of version 3 say.
const STROKE_TERMS: &str = "\
    A task may have to wait for a stroke of one below it, for B ticks: the longest stroke below it, less 1. So for each task the sum up to \
    it and B x D x (L / M) together may be as large as the capacity.";

pub fn terms(layout: Layout) -> String {
    match layout.has_strokes() {
        false => TERMS.to_owned(),
        true => format!("{TERMS} {STROKE_TERMS}"),
    }
}

/// A core with more work than time.
pub fn overload(page: &mut Page, load: &Load, layout: Layout) {
    let core = load.core.number;
    let terms = terms(layout);
    match is_above(load) {
        true => page.paragraph(&format!("The load of core {core} is above one. {terms}")),
        false => page.paragraph(&format!("The strokes on core {core} are too long. {terms}")),
    }
    core_table(page, load, layout);
    page.paragraph(&what_is_above(load, layout));
    page.paragraph(&at_real_periods(load));
}

/// Whether the core has more work than time without any strokes.
pub fn is_above(load: &Load) -> bool {
    load.sum() > load.capacity
}

fn what_is_above(load: &Load, layout: Layout) -> String {
    let Some(first) = load.first_above() else {
        return String::new();
    };
    let task = name(&first.task, layout.is_grouped());
    let thousandths = thousandths(load);
    if is_above(load) {
        let above = load.sum().saturating_sub(load.capacity);
        let what = match first.wait {
            0 => "the sum first goes",
            _ => "the sum and the wait first go",
        };
        return format!(
            "The sum is {above} above the capacity: the load is {thousandths}. Added up in order of priority, {what} above the capacity \
             with {task}."
        );
    }
    let (sum, wait, together) = (first.sum, first.wait, first.together());
    let above = together.saturating_sub(load.capacity);
    let longest = counted(longest_below(load, first), "tick");
    format!(
        "The load is {thousandths}, but with {task} the sum of {sum} and the wait of {wait} make {together}, which is {above} above the \
         capacity. A stroke of a task below it may have {longest} at most."
    )
}

/// The longest stroke for which a task can wait.
fn longest_below(load: &Load, share: &Share) -> u64 {
    let room = load.capacity.saturating_sub(share.sum);
    let tick = u128::from(load.core.divisor) * u128::from(share.times);
    room.checked_div(tick).unwrap_or(0) as u64 + 1
}

/// What the tasks need without any figures: it tells whether other figures could help.
fn at_real_periods(load: &Load) -> String {
    let Some(share) = real_thousandths(load) else {
        return String::new();
    };
    let tells = match (share > 1000, is_above(load)) {
        (true, _) => "That is more than there is, so no figures make them fit on this core.",
        (false, true) => "That is not more than there is, so other figures may make them fit.",
        (false, false) => "That is not more than there is, and with shorter strokes they fit.",
    };
    format!(
        "At their real periods the tasks need {} of the core's time, the sum of {}, rounded up. {tells}",
        counted(share, "thousandth"),
        unbroken("budget / period")
    )
}

/// The sum of budget / period over the tasks of a core.
pub fn real_thousandths(load: &Load) -> Option<u64> {
    let tasks: Vec<Task> = load.shares.iter().map(|share| share.task).collect();
    utilization::thousandths(&tasks)
}

/// A core that fits: its load, and what is free.
pub fn fitting(page: &mut Page, load: &Load, layout: Layout) {
    core_table(page, load, layout);
    let left = load.capacity.saturating_sub(load.sum());
    let free = match (left, load.thousandths()) {
        (0, _) => "nothing".to_owned(),
        (_, Some(part @ 0..=999)) => {
            let least = if is_exact(load) { "" } else { "at least " };
            format!("{least}{}", counted(1000 - part as u64, "thousandth"))
        }
        _ => "less than a thousandth".to_owned(),
    };
    page.paragraph(&format!(
        "The load is {}. Free in this plan: {free}.",
        thousandths(load)
    ));
}

/// Whether the load is a whole number of thousandths.
fn is_exact(load: &Load) -> bool {
    (1000 * load.sum()).checked_rem(load.capacity) == Some(0)
}

/// The load in words, and whether it is rounded.
fn thousandths(load: &Load) -> String {
    let rounded = if is_exact(load) { "" } else { ", rounded up" };
    match load.thousandths() {
        Some(1) => format!("1 thousandth{rounded}"),
        Some(count) => format!("{count} thousandths{rounded}"),
        None => "without limit".to_owned(),
    }
}

/// The figures of a core, its tasks, the sum and the capacity.
fn core_table(page: &mut Page, load: &Load, layout: Layout) {
    let (pivot, divisor, last) = (load.core.pivot, load.core.divisor, load.last);
    let mut table = Table::new(&[
        ("position", Side::Right),
        ("task", Side::Right),
        ("period", Side::Right),
        ("budget e", Side::Right),
        ("factor M", Side::Right),
        ("L / M", Side::Right),
        ("e x D x (L / M)", Side::Right),
        ("sum", Side::Right),
        ("stroke", Side::Right), // these four in version 3
        ("B", Side::Right),
        ("B x D x (L / M)", Side::Right),
        ("together", Side::Right),
    ]);
    let only = |has: bool, cell: String| if has { cell } else { String::new() };
    let strokes = layout.has_strokes();
    for share in &load.shares {
        table.row(vec![
            only(layout.is_grouped(), share.task.position.to_string()),
            share.task.number.to_string(),
            share.task.period.to_string(),
            share.task.budget.to_string(),
            share.task.factor.to_string(),
            share.times.to_string(),
            share.work.to_string(),
            share.sum.to_string(),
            only(strokes, share.task.stroke.to_string()),
            only(strokes, share.blocking.to_string()),
            only(strokes, share.wait.to_string()),
            only(strokes, share.together().to_string()),
        ]);
    }
    page.blank();
    page.line(&format!("Q = {pivot}, D = {divisor}, L = {last}"));
    page.table(&table);
    page.line(&format!(
        "sum {}, capacity Q x L = {pivot} x {last} = {}",
        load.sum(),
        load.capacity
    ));
    page.blank();
}
