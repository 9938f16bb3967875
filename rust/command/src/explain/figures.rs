//! Figures that show nothing, in words: an accelerated period that is too long, and a chain of factors that is broken.

use super::page::{unbroken, Page};
use super::rules::Stretch;
use super::why::name;
use crate::fields::{Fraction, Task};
use crate::table::{Side, Table};

pub fn stretch(stretch: &Stretch, grouped: bool) -> String {
    let Stretch { task, core, .. } = stretch;
    let (accelerated, period) = (stretch.accelerated, stretch.period);
    let fraction = Fraction::new(accelerated, core.divisor.into());
    let fraction = fraction.map_or_else(String::new, |fraction| format!(" = {fraction}"));
    let most = match period.checked_div(core.pivot.into()) {
        None | Some(0) => "no factor is small enough".to_owned(),
        Some(most) => format!("the factor may be {most} at most"),
    };
    format!(
        "The period p of {} is {} and its factor M is {}. Its core {} has the pivot Q of {} and the divisor D of {}. So {} is above {}: \
         the accelerated period {} is longer than {}, the period. With this pivot, divisor and period {most}.",
        name(task, grouped),
        task.period,
        task.factor,
        core.number,
        core.pivot,
        core.divisor,
        unbroken(&format!("Q x M = {accelerated}")),
        unbroken(&format!("p x D = {period}")),
        unbroken(&format!("Q x M / D{fraction}")),
        task.period,
    )
}

pub fn chain(page: &mut Page, core: u8, tasks: &[Task], at: usize, grouped: bool) {
    let pair = at.checked_sub(1).and_then(|before| tasks.get(before));
    if let (Some(before), Some(task)) = (pair, tasks.get(at)) {
        page.paragraph(&format!(
            "The factor of {} is {}. It is no multiple of {}, the factor of {}, which comes before it by priority on core {core}. \
             The tasks of this core in order of priority:",
            name(task, grouped),
            task.factor,
            before.factor,
            name(before, grouped)
        ));
    }
    page.blank();
    page.table(&chain_table(tasks, at, grouped));
}

fn chain_table(tasks: &[Task], at: usize, grouped: bool) -> Table {
    let mut table = Table::new(&[
        ("position", Side::Right),
        ("task", Side::Right),
        ("period", Side::Right),
        ("factor", Side::Right),
        ("multiple of the factor before it", Side::Left),
    ]);
    let mut before = None;
    for (place, task) in tasks.iter().enumerate() {
        let position = task.position.to_string();
        let mut multiple = before.map_or_else(String::new, |before| multiple(task.factor, before));
        if place == at {
            multiple.push_str("  <-- rule 13");
        }
        table.row(vec![
            if grouped { position } else { String::new() },
            task.number.to_string(),
            task.period.to_string(),
            task.factor.to_string(),
            multiple,
        ]);
        before = Some(task.factor);
    }
    table
}

/// `yes: 6 = 3 x 2`, or `no: 7 = 3 x 2 + 1`.
fn multiple(factor: u32, before: u32) -> String {
    match (factor.checked_div(before), factor.checked_rem(before)) {
        (Some(times), Some(0)) => format!("yes: {factor} = {times} x {before}"),
        (Some(times), Some(rest)) => format!("no: {factor} = {times} x {before} + {rest}"),
        _ => "no".to_owned(),
    }
}
