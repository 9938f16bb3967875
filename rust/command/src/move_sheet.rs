//! `homvaits move`: the sheet of the other version.

use std::ffi::OsStr;

use homvaits::Word;

use crate::args::{valued, Args, OptionSpec};
use crate::failure::{Failure, Outcome, WELL};
use crate::fields::Version;
use crate::files::{read_front, shown};
use crate::list::FRONT;
use crate::out::Out;
use crate::replace::{not_to_terminal, replace};
use crate::wording;

pub const OPTIONS: &[OptionSpec] = &[valued("-o", "MOVED")];

pub fn move_sheet(args: &Args, out: &mut Out) -> Outcome {
    let path = args.one_file("sheet")?;
    let to = args.value("-o").unwrap_or(OsStr::new("-"));
    not_to_terminal(to)?;
    let bytes = read_front(path, FRONT)?;
    let moved = homvaits::move_sheet(&bytes).map_err(|refusal| {
        let why = wording::refused(refusal, &bytes);
        // a good sheet of version 3 is refused too, and there is nothing to explain
        let hint = match (refusal.word, Version::of(&bytes)) {
            (Word::Version, Some(Version::Strokes)) => "",
            _ => "; `homvaits explain` tells more",
        };
        Failure::refused(format!("{}: {why}{hint}", shown(path)))
    })?;
    match to == "-" {
        true => out.write(moved.as_bytes()),
        false => {
            replace(to, moved.as_bytes())?;
            out.line(&format!(
                "{}: version {}, {} bytes",
                shown(to),
                moved.version(),
                moved.as_bytes().len()
            ));
        }
    }
    Ok(WELL)
}
