//! Writes the files of vectors/ anew: `vectors FOLDER`. docs/SHEET.md, section
//! 15, tells their form. Every case stands in one of the modules below. Refusals,
//! margins, the figures of small plans and the answers of runs stand with it, as
//! worked out by hand, and the program stops where the reference answers
//! otherwise; listings and the bytes of sheets are the reference's.
//!
//! A further file is a module with a function that gives a `File`, and a line
//! in `files`.

mod check;
mod check1;
mod check2;
mod check3;
mod form;
mod listing;
mod margin;
mod mover;
mod plan;
mod row;
mod run;
mod sheets;

use form::File;
use std::path::Path;
use std::{env, fs, io, process};

fn files() -> Vec<File> {
    vec![
        check1::file(),
        check2::file(),
        check3::file(),
        listing::file(),
        plan::file(),
        mover::file(),
        margin::file(),
        run::file(),
        row::file(),
    ]
}

fn main() {
    let words: Vec<String> = env::args().skip(1).collect();
    let [folder] = words.as_slice() else {
        eprintln!("usage: vectors FOLDER");
        process::exit(2);
    };
    if let Err(error) = write(Path::new(folder)) {
        eprintln!("vectors: {folder}: {error}");
        process::exit(1);
    }
}

fn write(folder: &Path) -> io::Result<()> {
    fs::create_dir_all(folder)?;
    for file in files() {
        fs::write(folder.join(file.name), file.text())?;
    }
    Ok(())
}
