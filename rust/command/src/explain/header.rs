//! What is wrong with a header, in words, and what may have happened to the sheet.

use super::guess::{is_in_range, Guess};
use super::page::{hex, printable, unbroken};
use super::rules::MOST_TASKS;
use crate::fields::{Fields, Layout, Version, HEADER_SIZE};
use crate::wording::{counted, joined};

pub fn mark(found: [u8; 3]) -> String {
    let text = printable(&found).map_or_else(String::new, |text| format!(", as text `{text}`"));
    format!(
        "The first three bytes are {}{text}. A sheet begins with 54 53 48, as text `TSH`.",
        hex(&found)
    )
}

pub fn version(found: u16) -> String {
    let swapped = match found.swap_bytes() {
        version @ 1..=3 => format!(
            " The two bytes seem to be exchanged: {} is version {version}.",
            hex(&version.to_le_bytes())
        ),
        _ => String::new(),
    };
    format!(
        "The version is {found}, in bytes {}. Versions 1, 2 and 3 are known here.{swapped}",
        hex(&found.to_le_bytes())
    )
}

/// `2 tasks and 1 core`.
fn counts(layout: Layout) -> String {
    let tasks = counted(layout.tasks.into(), "task");
    format!("{tasks} and {}", counted(layout.cores.into(), "core"))
}

pub fn counts_out_of_range(layout: Layout) -> String {
    let counts = counts(layout);
    format!("The header says {counts}. A sheet has at most 64 tasks and at most 8 cores.")
}

/// `more` says that the file has more bytes than were found.
pub fn other_length(layout: Layout, found: usize, more: bool) -> String {
    let Layout { tasks, cores, .. } = layout;
    let length = layout.length();
    let formula = unbroken(&format!("8 + 10 x {tasks} + 8 x {cores} = {length}"));
    let counts = counts(layout);
    let rule = format!("The header says {counts}. That makes {formula} bytes.");
    if more {
        format!("{rule} There are more than {found} bytes.")
    } else if found > length {
        format!("{rule} There are {found}: {} too many.", found - length)
    } else {
        format!("{rule} There are {found}: {} too few.", length - found)
    }
}

/// What may have happened, in words.
pub fn guess(fields: &Fields, guess: &Guess) -> Option<String> {
    match guess {
        Guess::Header(layout) => Some(other_header(fields, *layout)),
        Guess::Front => Some(format!(
            "The first {} bytes by themselves would be accepted: it is likely that what stands behind them does not belong to the sheet.",
            fields.layout.length()
        )),
        Guess::Spare => Some(
            "With 00 there the sheet would be accepted: it is likely that nothing else is damaged."
                .to_owned(),
        ),
        Guess::Counts(layouts) if !layouts.is_empty() => {
            let counts: Vec<String> = layouts.iter().copied().map(counts).collect();
            Some(format!(
                "The length is that of {}: a count may be damaged.",
                counts.join(", or of ")
            ))
        }
        Guess::Counts(_) | Guess::Nothing => None,
    }
}

fn other_header(fields: &Fields, layout: Layout) -> String {
    let differences = joined(&differences(fields, layout));
    format!("With {differences} in its header the sheet would be accepted: it is likely that nothing else is damaged.")
}

/// What the header of a layout has and that of the bytes has not.
fn differences(fields: &Fields, layout: Layout) -> Vec<String> {
    let own = fields.layout;
    let version = layout.version.number();
    let tasks = counted(layout.tasks.into(), "task");
    let cores = counted(layout.cores.into(), "core");
    let differences = [
        (fields.mark() != Some(*b"TSH"), "the mark TSH".to_owned()),
        (
            fields.version() != Some(version.into()),
            format!("version {version}"),
        ),
        (own.tasks != layout.tasks, tasks),
        (own.cores != layout.cores, cores),
        (fields.byte(7) != Some(0), "a spare byte of 00".to_owned()),
    ];
    let differences = differences.into_iter().filter(|(differs, _)| *differs);
    differences.map(|(_, words)| words).collect()
}

/// Says how the records are read, where that is not by a right mark, version and counts of the header.
pub fn reading(fields: &Fields) -> Option<String> {
    let own = Fields::new(fields.bytes).layout;
    let layout = fields.layout;
    let version = layout.version.number();
    let known = fields.mark() == Some(*b"TSH") && Version::of(fields.bytes).is_some();
    if known && own == layout || fields.bytes.len() < HEADER_SIZE || layout.length() == HEADER_SIZE
    {
        None
    } else if is_in_range(own) || layout.length() == fields.bytes.len() {
        let counts = counts(layout);
        Some(format!(
            "The records are read as those of version {version} with {counts}."
        ))
    } else {
        let records = match own.tasks > MOST_TASKS {
            true => "task records",
            false => "core records",
        };
        Some(format!(
            "No right counts are known: {records} of version {version} are shown as far as the bytes go, and no more than a sheet has."
        ))
    }
}
