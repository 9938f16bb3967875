//! What the owner of a refused sheet can do.

use super::guess::Guess;
use super::load;
use super::rules::Fault;
use crate::fields::{Layout, Load};

pub fn advice(layout: Layout, fault: &Fault, guess: &Guess) -> String {
    let another_copy = match layout.has_strokes() {
        false => "Use another copy, or plan the jobs anew with `homvaits plan`.",
        true => "Use another copy, or plan the jobs anew with `homvaits plan`, which writes version 1, without strokes.",
    };
    match (guess, fault) {
        (_, Fault::Version { .. }) => "\
            Look for newer software, which may know this version. If the sheet was of version 1, 2 or 3, it is damaged: use another copy."
            .to_owned(),
        (Guess::Header(_), _) => format!("The header is likely damaged. {another_copy}"),
        (Guess::Front, _) => format!("Something was likely added to the sheet. {another_copy}"),
        (_, Fault::Stub { .. }) => "\
            See whether this is the right file, and whether it is whole. If it was cut, use another copy."
            .to_owned(),
        (_, Fault::Mark { .. }) => "\
            See whether this is the right file: as it stands it is no sheet. If it was one, it is damaged: use another copy."
            .to_owned(),
        (_, Fault::Length { layout, found }) => match *found < layout.length() {
            true => format!("The sheet was cut, or a count is damaged. {another_copy}"),
            false => format!("Something was added to the sheet, or a count is damaged. {another_copy}"),
        },
        (_, Fault::Order(_)) => "\
            The sheet is damaged, or was written by software that does not know the order of version 2. Use another copy, move the sheet \
            of version 1 anew with `homvaits move`, or plan the jobs anew with `homvaits plan`."
            .to_owned(),
        (_, Fault::Stretch(_) | Fault::Chain { .. }) => format!(
            "The figures do not show that the jobs end on time: they are damaged, or were never right. {another_copy}"
        ),
        (_, Fault::Overload(load)) if !load::is_above(load) => "\
            If the sheet is damaged, use another copy. If not, shorten the strokes, or put tasks with long strokes and tasks with short \
            periods on different cores."
            .to_owned(),
        (_, Fault::Overload(load)) => lighten(load),
        _ => format!("The sheet is damaged. {another_copy}"),
    }
}

/// What may help a core that has more work than time.
fn lighten(load: &Load) -> String {
    let plan = match load::real_thousandths(load) {
        Some(1001..) => "on more cores or with smaller budgets",
        _ => "which may find other figures, or put fewer of them on the core",
    };
    format!("If the sheet is damaged, use another copy. If not, plan the jobs anew with `homvaits plan`, {plan}.")
}
