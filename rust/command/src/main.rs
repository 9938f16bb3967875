//! The command `homvaits`. Every verdict, plan, state, moved sheet and margin of a list comes from the proved library, through the crate
//! `homvaits`; the command reads, words, counts and draws.

mod args;
mod check;
mod draw;
mod explain;
mod failure;
mod fields;
mod files;
mod help;
mod jobs;
mod judge;
mod list;
mod loads;
mod log;
mod margins;
mod move_sheet;
mod out;
mod plan;
mod replace;
mod rng;
mod run;
mod table;
mod wording;

use std::env;
use std::ffi::OsString;
use std::process::ExitCode;

use args::{Args, OptionSpec};
use failure::{Failure, Outcome, FAILED, WELL};
use out::Out;

/// A command: its name, its help, its options, and what it does.
struct Command {
    name: &'static str,
    help: &'static str,
    /// In groups, of which commands share some.
    options: &'static [&'static [OptionSpec]],
    work: fn(&Args, &mut Out) -> Outcome,
}

const COMMANDS: [Command; 8] = [
    Command {
        name: "check",
        help: help::CHECK,
        options: &[check::OPTIONS],
        work: check::check,
    },
    Command {
        name: "list",
        help: help::LIST,
        options: &[],
        work: list::list,
    },
    Command {
        name: "explain",
        help: help::EXPLAIN,
        options: &[],
        work: explain::explain,
    },
    Command {
        name: "plan",
        help: help::PLAN,
        options: &[plan::OPTIONS],
        work: plan::plan,
    },
    Command {
        name: "margins",
        help: help::MARGINS,
        options: &[],
        work: margins::margins,
    },
    Command {
        name: "move",
        help: help::MOVE,
        options: &[move_sheet::OPTIONS],
        work: move_sheet::move_sheet,
    },
    Command {
        name: "run",
        help: help::RUN,
        options: &[run::make::OPTIONS, run::OPTIONS],
        work: run::run,
    },
    Command {
        name: "draw",
        help: help::DRAW,
        options: &[run::make::OPTIONS, draw::OPTIONS],
        work: draw::draw,
    },
];

fn main() -> ExitCode {
    let words: Vec<OsString> = env::args_os().skip(1).collect();
    let mut out = Out::new();
    let outcome = dispatch(words, &mut out);
    // what was worked out before a failure is printed before it is told
    let written = out.end().map(|()| WELL);
    ExitCode::from(told(outcome).max(told(written)))
}

/// The status of an outcome; a failure is told.
fn told(outcome: Outcome) -> u8 {
    outcome.unwrap_or_else(|failure| {
        files::tell(&failure.text);
        failure.status
    })
}

fn dispatch(words: Vec<OsString>, out: &mut Out) -> Outcome {
    let mut words = words.into_iter();
    let first = words.next().unwrap_or_default();
    let first = first.to_string_lossy();
    match first.as_ref() {
        "" => {
            files::tell(help::GENERAL.trim_end());
            return Ok(FAILED);
        }
        "help" | "--help" | "-h" => return help(words.as_slice(), out),
        "--version" | "-V" => {
            out.line(concat!("homvaits ", env!("CARGO_PKG_VERSION")));
            return Ok(WELL);
        }
        _ => {}
    }
    let command = command(&first)?;
    let words: Vec<OsString> = words.collect();
    let files_from = words.iter().position(|word| word == "--");
    let options = &words[..files_from.unwrap_or(words.len())];
    if options.iter().any(|word| word == "--help" || word == "-h") {
        out.write(command.help.as_bytes());
        return Ok(WELL);
    }
    let work = || (command.work)(&Args::parse(words, &command.options.concat())?, out);
    work().map_err(|failure| Failure {
        text: format!("homvaits {}: {}", command.name, failure.text),
        ..failure
    })
}

fn help(of: &[OsString], out: &mut Out) -> Outcome {
    let text = match of {
        [] => help::GENERAL,
        [name] if name == "help" => help::GENERAL,
        [name] => command(&name.to_string_lossy())?.help,
        [_, next, ..] => {
            let next = wording::quoted(&next.to_string_lossy());
            return Err(Failure::new(format!(
                "homvaits help: one command at a time: {next} is one too many"
            )));
        }
    };
    out.write(text.as_bytes());
    Ok(WELL)
}

fn command(name: &str) -> Result<&'static Command, Failure> {
    let found = COMMANDS.iter().find(|command| command.name == name);
    found.ok_or_else(|| {
        let names: Vec<&str> = COMMANDS.iter().map(|command| command.name).collect();
        Failure::new(format!(
            "homvaits: there is no command {}: there are {}, and help",
            wording::quoted(name),
            names.join(", ")
        ))
    })
}
