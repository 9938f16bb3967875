//! `homvaits draw`: a picture of a run.

mod rows;
mod svg;
mod text;

use std::env;
use std::ffi::OsStr;

use crate::args::{flag, valued, Args, OptionSpec};
use crate::failure::{Failure, Outcome};
use crate::files::{read_whole, shown};
use crate::judge;
use crate::list::FRONT;
use crate::log::reader::{is_log, Calls, LONGEST};
use crate::log::{Log, Origin, FIRST_LINE};
use crate::out::Out;
use crate::replace::replace;
use crate::run;
use crate::run::make::{self, Made};

pub const OPTIONS: &[OptionSpec] = &[
    valued("-o", "PICTURE"),
    flag("--text"),
    valued("--width", "N"),
];

/// Ticks of a core that a picture has at most.
const MOST_TICKS: usize = 20_000;

/// Calls of a core that a picture has at most, ticks included: more than twice as many as a run of so many ticks makes.
const MOST_CALLS: usize = 100_000;

/// Columns of letters where nothing says how many there are.
const COLUMNS: usize = 100;

pub fn draw(args: &Args, out: &mut Out) -> Outcome {
    let width = args.number("--width", 40, 1000)?;
    if width.is_some() && !args.has("--text") {
        return Err(Failure::new("--width goes with --text"));
    }
    make::keeps_inputs(args)?;
    let made = made(args)?;
    for (most, what, count) in [
        (MOST_TICKS, "ticks", Log::ticks as fn(&Log) -> usize),
        (MOST_CALLS, "calls", |log| log.entries.len()),
    ] {
        if made.logs.iter().any(|log| count(log) > most) {
            return Err(Failure::new(format!(
                "a picture has at most {most} {what} for each core: this run is longer"
            )));
        }
    }
    let picture = match args.has("--text") {
        true => text::text(
            &made.logs,
            width.map_or_else(columns, |width| width as usize),
        ),
        false => svg::svg(&made.logs),
    };
    match args.value("-o").filter(|&to| to != OsStr::new("-")) {
        Some(to) => {
            replace(to, picture.as_bytes())?;
            let bytes = picture.len();
            out.line(&format!("{}: the picture, {bytes} bytes", shown(to)));
        }
        None => out.write(picture.as_bytes()),
    }
    let late = |log: &Log| judge::jobs(log).iter().any(|job| job.late);
    Ok(run::status("draw", &made, made.logs.iter().any(late)))
}

/// The runs: of a job list, of a sheet, or those of a log.
fn made(args: &Args) -> Result<Made, Failure> {
    let path = args.one_file("sheet or log")?;
    make::once_standard_input(args)?;
    if args.has("--bench") {
        return make::bench(args, path);
    }
    let bytes = read_whole(path, LONGEST)?;
    match is_log(&bytes) {
        true => of_log(args, path, &bytes),
        false if !bytes.starts_with(b"TSH") => Err(Failure::refused(format!(
            "{}: it is no sheet, which begins with TSH, and no log, which begins with the line `{FIRST_LINE}`",
            shown(path)
        ))),
        false => make::of_bytes(args, path, &bytes[..bytes.len().min(FRONT)]),
    }
}

/// A log as it stands.
fn of_log(args: &Args, path: &OsStr, bytes: &[u8]) -> Result<Made, Failure> {
    for option in ["--ticks", "--earliest", "--random", "--calls"] {
        if args.has(option) {
            let text = format!(
                "{} is a log, drawn as it stands: {option} is for a sheet",
                shown(path)
            );
            return Err(Failure::new(text));
        }
    }
    let only = args.number("--core", 0, 255)?;
    let mut logs = Calls::parse(shown(path), bytes)?.logs()?;
    if let Some(core) = only {
        logs.retain(|log| log.origin == Origin::Core(core as u8));
        if logs.is_empty() {
            let text = format!("there is no core {core} in the log {}", shown(path));
            return Err(Failure::new(text));
        }
    }
    make::named(args, logs.iter_mut().flat_map(|log| &mut log.tasks), None)?;
    Ok(Made {
        logs,
        differences: Vec::new(),
    })
}

/// The terminal's columns, if the environment tells them.
fn columns() -> usize {
    let told = env::var("COLUMNS").ok().and_then(|text| text.parse().ok());
    told.map_or(COLUMNS, |columns: usize| columns.clamp(40, 1000))
}
