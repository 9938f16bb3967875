//! `homvaits check`: the verdict on each file.

mod answers;
mod json;
mod progress;
mod report;
#[cfg(test)]
mod scratch;
mod tally;
mod walk;
mod workers;

use std::ffi::{OsStr, OsString};

use crate::args::{flag, valued, Args, OptionSpec};
use crate::failure::{Failure, Outcome};
use crate::out::Out;
use crate::wording::quoted;

use answers::Style;
use progress::Progress;
use report::Report;

pub const OPTIONS: &[OptionSpec] = &[flag("--quiet"), flag("--json"), valued("--ending", "TEXT")];

pub fn check(args: &Args, out: &mut Out) -> Outcome {
    let paths = paths(args)?;
    let ending = args.value("--ending").unwrap_or(OsStr::new(""));
    let style = Style {
        quiet: args.has("--quiet"),
        json: args.has("--json"),
    };
    let mut progress = Progress::new();
    let walked = walk::walk(paths, ending, &mut progress);
    let mut report = Report::new(style, out, progress, walked.files.len() as u64);
    workers::check(&walked.files, style, |answers| report.add(&answers));
    let status = report.end(walked.folder || paths.len() > 1);
    match (walked.files.is_empty(), ending.is_empty()) {
        (false, _) => Ok(status),
        (true, true) => Err(Failure::new("there is no file to check")),
        (true, false) => Err(Failure::new(format!(
            "there is no file to check whose name ends with {}",
            quoted(&ending.to_string_lossy())
        ))),
    }
}

fn paths(args: &Args) -> Result<&[OsString], Failure> {
    let standard_input = args.files.iter().filter(|path| *path == "-");
    match (args.files.len(), standard_input.count()) {
        (0, _) => Err(Failure::new(
            "no sheet or folder is named; --help tells how",
        )),
        (_, 0 | 1) => Ok(&args.files),
        _ => Err(Failure::new("standard input is named twice")),
    }
}
