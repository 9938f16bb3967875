//! `homvaits run`: drives the cores of a sheet, and tells how their jobs got on.

mod cores;
mod driver;
pub mod make;
mod tally;

use std::ffi::OsStr;

use crate::args::{valued, Args, OptionSpec};
use crate::failure::{Outcome, REFUSED, WELL};
use crate::files::{shown, tell};
use crate::log::{Log, FIRST_LINE};
use crate::out::Out;
use crate::replace::replace;
use make::Made;

pub const OPTIONS: &[OptionSpec] = &[valued("-o", "LOG")];

pub fn run(args: &Args, out: &mut Out) -> Outcome {
    make::keeps_inputs(args)?;
    let made = make::runs(args)?;
    let told = tally::told(&made.logs);
    let log = whole(&made.logs);
    match args.value("-o").filter(|&to| to != OsStr::new("-")) {
        None => {
            out.write(log.as_bytes());
            // comments, so that what was printed is a log
            told.lines
                .iter()
                .for_each(|line| out.line(&format!("# {line}")));
        }
        Some(to) => {
            replace(to, log.as_bytes())?;
            told.lines.iter().for_each(|line| out.line(line));
            out.line(&format!("{}: the log", shown(to)));
        }
    }
    Ok(status("run", &made, told.late))
}

/// Tells the differences, by the name of the command, and answers the exit status.
pub fn status(command: &str, made: &Made, late: bool) -> u8 {
    let tell = |text: &String| tell(&format!("homvaits {command}: {text}"));
    made.differences.iter().for_each(tell);
    match late || !made.differences.is_empty() {
        true => REFUSED,
        false => WELL,
    }
}

fn whole(logs: &[Log]) -> String {
    let texts = logs.iter().map(Log::text);
    texts.fold(format!("{FIRST_LINE}\n"), |whole, text| whole + &text)
}
