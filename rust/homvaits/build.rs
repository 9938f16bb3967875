//! Links the library that HOMVAITS_LIB names, or else the one that `./build capi` writes in this repository, if it has the layout
//! that the crate is written for.

use std::env;
use std::fs;
use std::path::{Path, PathBuf};

include!("src/number.rs");

/// How the symbol of the library begins whose name ends with the number of its layout.
const SYMBOL: &[u8] = b"homvaits_layout_";

fn main() {
    println!("cargo::rerun-if-env-changed=HOMVAITS_LIB");
    if let Err(message) = link() {
        println!("cargo::error={message}");
    }
}

fn link() -> Result<(), String> {
    let named = env::var_os("HOMVAITS_LIB").filter(|path| !path.is_empty());
    let lib = match named {
        Some(path) => PathBuf::from(path),
        None => Path::new(env!("CARGO_MANIFEST_DIR")).join("../../target/staticlib/libcapi.a"),
    };
    let shown = lib.display();
    // a file that is not there yet is looked for again
    println!("cargo::rerun-if-changed={shown}");
    if !lib.is_absolute() {
        return Err(format!("HOMVAITS_LIB is {shown}: give the whole path"));
    }
    if !lib.is_file() {
        return Err(format!(
            "there is no library {shown}: run `./build capi` in the repository, or set HOMVAITS_LIB to the whole path of libcapi.a"
        ));
    }
    let name = lib
        .file_name()
        .and_then(|name| name.to_str()?.strip_prefix("lib")?.strip_suffix(".a"));
    let (Some(name), Some(folder)) = (name, lib.parent()) else {
        return Err(format!("HOMVAITS_LIB is {shown}: its name is no lib*.a"));
    };
    let bytes = fs::read(&lib).map_err(|error| format!("{shown}: {error}"))?;
    let has = match layout_of(&bytes) {
        Some(LAYOUT) => None,
        Some(other) => Some(format!("layout {other}")),
        None => Some(String::from("no layout number")),
    };
    if let Some(has) = has {
        return Err(format!(
            "the library {shown} has {has}, and this crate needs layout {LAYOUT} (the symbol homvaits_layout_{LAYOUT}): take crate and library from one revision of the repository, where `./build capi` makes libcapi.a"
        ));
    }
    println!("cargo::rustc-link-search=native={}", folder.display());
    println!("cargo::rustc-link-lib=static={name}");
    Ok(())
}

/// The number in the name of the symbol that says it.
fn layout_of(archive: &[u8]) -> Option<u32> {
    symbols(archive)?
        .split(|&byte| byte == 0)
        .filter_map(|name| name.strip_prefix(SYMBOL))
        .find_map(|number| std::str::from_utf8(number).ok()?.parse().ok())
}

/// The names of the symbols that an archive defines, a zero byte after each. They stand in its first member, whose header has 60 bytes,
/// behind their count and as many offsets, of 4 bytes each.
fn symbols(archive: &[u8]) -> Option<&[u8]> {
    let (header, rest) = archive.strip_prefix(b"!<arch>\n")?.split_at_checked(60)?;
    let size = header.strip_prefix(b"/ ").and(header.get(48..58))?;
    let size = std::str::from_utf8(size).ok()?.trim_end().parse().ok()?;
    let (count, rest) = rest.get(..size)?.split_first_chunk()?;
    let count = usize::try_from(u32::from_be_bytes(*count)).ok()?;
    rest.get(count.checked_mul(4)?..)
}
