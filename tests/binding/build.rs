//! Links the static library that HOMVAITS_LIB names (a path to lib*.a).

use std::{env, path::PathBuf};

fn main() {
    println!("cargo:rerun-if-env-changed=HOMVAITS_LIB");
    let path = env::var("HOMVAITS_LIB").expect("HOMVAITS_LIB: the path of the static library");
    let path = PathBuf::from(path)
        .canonicalize()
        .expect("HOMVAITS_LIB names no file");
    let folder = path.parent().expect("a file has a folder");
    let name = path
        .file_name()
        .and_then(|name| name.to_str())
        .and_then(|name| name.strip_prefix("lib")?.strip_suffix(".a"))
        .expect("HOMVAITS_LIB is not of the form lib*.a");
    println!("cargo:rerun-if-changed={}", path.display());
    println!("cargo:rustc-link-search=native={}", folder.display());
    println!("cargo:rustc-link-lib=static={name}");
}
