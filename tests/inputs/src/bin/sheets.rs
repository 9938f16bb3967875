//! Writes sheets of every kind to files: `sheets FOLDER SEED COUNT`. The files are 0000.tsh, 0001.tsh and so on; every second one is
//! damaged, and each kind of damage comes in turn, for sheets of all versions.

use inputs::*;
use std::path::Path;
use std::{env, fs, io, process};

const KINDS: usize = SHEET_DAMAGES + GROUPED_DAMAGES + STROKE_DAMAGES;

fn main() {
    let words: Vec<String> = env::args().skip(1).collect();
    let (seed, count) = match words.as_slice() {
        [_, seed, count] => (seed.parse(), count.parse()),
        _ => usage(),
    };
    let (Ok(seed), Ok(count)) = (seed, count) else {
        usage();
    };
    if let Err(error) = write(Path::new(&words[0]), seed, count) {
        eprintln!("sheets: {}: {error}", words[0]);
        process::exit(1);
    }
}

fn usage() -> ! {
    eprintln!("usage: sheets FOLDER SEED COUNT");
    process::exit(2);
}

fn write(folder: &Path, seed: u64, count: usize) -> io::Result<()> {
    fs::create_dir_all(folder)?;
    let mut rng = Rng::new(seed);
    for turn in 0..count {
        let bytes = match turn % 2 {
            0 => damaged(&mut rng, turn / 2 % KINDS),
            _ => any(&mut rng, turn / 2),
        };
        fs::write(folder.join(format!("{turn:04}.tsh")), bytes)?;
    }
    Ok(())
}

/// A sheet with this kind of damage, the kinds of version 1 first and those of
/// version 3 last.
fn damaged(rng: &mut Rng, kind: usize) -> Vec<u8> {
    if kind < SHEET_DAMAGES {
        let sheet = match rng.once_in(2) {
            true => planned_sheet(rng),
            false => handmade_sheet(rng),
        };
        return damaged_sheet(rng, &sheet, kind);
    }
    let kind = kind - SHEET_DAMAGES;
    if kind < GROUPED_DAMAGES {
        let sheet = grouped_sheet(rng);
        return damaged_grouped(rng, &sheet, kind);
    }
    let sheet = stroke_sheet(rng);
    damaged_strokes(rng, &sheet, kind - GROUPED_DAMAGES)
}

/// A sheet that is accepted, or nearly right, or random bytes.
fn any(rng: &mut Rng, turn: usize) -> Vec<u8> {
    let length = rng.index(801);
    match turn % 13 {
        0 | 1 => planned_sheet(rng),
        2 | 3 => handmade_sheet(rng),
        4 => longest_sheet(rng),
        5 | 6 => grouped_sheet(rng),
        7 | 8 => stroke_sheet(rng),
        9 => likely_sheet(rng),
        10 => likely_grouped(rng),
        11 => likely_strokes(rng),
        _ => match rng.below(3) {
            0 => random_bytes(rng, length),
            1 => random_grouped(rng, length),
            _ => random_strokes(rng, length),
        },
    }
}
