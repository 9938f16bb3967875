//! `homvaits list`: the proved listing.

use homvaits::LISTING_MAX;

use crate::args::Args;
use crate::failure::{Outcome, REFUSED, WELL};
use crate::files::read_front;
use crate::out::Out;

/// One more than the longest sheet: a longer file has the verdict, the listing and the moved sheet of its first so many bytes.
pub const FRONT: usize = homvaits::SHEET_MAX + 1;

pub fn list(args: &Args, out: &mut Out) -> Outcome {
    let bytes = read_front(args.one_file("sheet")?, FRONT)?;
    let mut room = [0; LISTING_MAX];
    out.write(homvaits::list(&bytes, &mut room).as_bytes());
    Ok(match homvaits::check(&bytes) {
        Ok(_) => WELL,
        Err(_) => REFUSED,
    })
}
