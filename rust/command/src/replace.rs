//! Files that are replaced whole.

use std::ffi::OsStr;
use std::fs::{self, File, OpenOptions, Permissions};
use std::io::{self, ErrorKind, IsTerminal, Write};
use std::os::unix::fs::{MetadataExt, OpenOptionsExt};
use std::path::{Path, PathBuf};

use crate::failure::Failure;
use crate::files::{failed, shown};

/// The system's number of the error `Is a directory`.
const IS_A_DIRECTORY: i32 = 21;

/// A sheet is not written to a terminal.
pub fn not_to_terminal(to: &OsStr) -> Result<(), Failure> {
    match to == "-" && io::stdout().is_terminal() {
        true => Err(Failure::new(
            "a sheet is no text: write it with -o to a file, or pipe it",
        )),
        false => Ok(()),
    }
}

/// What is written is none of the files that are read by name.
pub fn not_an_input(to: &OsStr, inputs: &[Option<&OsStr>]) -> Result<(), Failure> {
    let file = |path: &OsStr| {
        let there = fs::metadata(path).ok().filter(fs::Metadata::is_file)?;
        Some((there.dev(), there.ino()))
    };
    let Some(place) = file(to) else {
        return Ok(());
    };
    let mut inputs = inputs.iter().flatten().filter(|&&path| path != "-");
    match inputs.find(|path| file(path) == Some(place)) {
        Some(input) => Err(Failure::new(format!(
            "-o {}: this is {}, which is read, and would be lost",
            shown(to),
            shown(input)
        ))),
        None => Ok(()),
    }
}

/// Writes a file whole or not at all: beside it, and then in its place. What is no file, such as a device, is written as it stands.
pub fn replace(path: &OsStr, bytes: &[u8]) -> Result<(), Failure> {
    let write = || match fs::metadata(path) {
        Ok(there) if there.is_dir() => Err(io::Error::from_raw_os_error(IS_A_DIRECTORY)),
        Ok(there) if !there.is_file() => write_through(path, bytes),
        Ok(there) if there.permissions().readonly() => {
            Err(io::Error::other("the file is write-protected"))
        }
        Ok(there) => write_beside(&behind_links(path)?, bytes, Some(there.permissions())),
        Err(error) if error.kind() == ErrorKind::NotFound => {
            let path = behind_links(path)?;
            match path.file_name() {
                Some(_) => write_beside(&path, bytes, None),
                None => Err(error),
            }
        }
        Err(error) => Err(error),
    };
    write().map_err(|error| failed(path, &error))
}

/// Writes to what is no file. A pipe that nobody reads any more is no error.
fn write_through(path: &OsStr, bytes: &[u8]) -> io::Result<()> {
    let mut file = OpenOptions::new().write(true).open(path)?;
    match file.write_all(bytes) {
        Err(error) if error.kind() == ErrorKind::BrokenPipe => Ok(()),
        result => result,
    }
}

/// The path of what a link names, be it there or not, so that the link stays one.
fn behind_links(path: &OsStr) -> io::Result<PathBuf> {
    let mut path = PathBuf::from(path);
    // the system follows 40 at most
    for _ in 0..40 {
        match fs::read_link(&path) {
            Ok(next) => path = path.parent().unwrap_or(Path::new("")).join(next),
            Err(_) => return Ok(path),
        }
    }
    Err(ErrorKind::InvalidInput.into())
}

fn write_beside(path: &Path, bytes: &[u8], permissions: Option<Permissions>) -> io::Result<()> {
    // what replaces a file is not open to more than that file is
    let mode = if permissions.is_some() { 0o600 } else { 0o666 };
    let (beside, mut file) = new_beside(path, mode)?;
    let written = file
        .write_all(bytes)
        .and_then(|()| match permissions {
            Some(permissions) => file.set_permissions(permissions),
            None => Ok(()),
        })
        .and_then(|()| file.sync_all())
        .and_then(|()| fs::rename(&beside, path));
    if written.is_err() {
        let _ = fs::remove_file(&beside); // the first error is the one to tell
    }
    written
}

/// A new file in the same folder.
fn new_beside(path: &Path, mode: u32) -> io::Result<(PathBuf, File)> {
    let process = std::process::id();
    let mut last = ErrorKind::AlreadyExists.into();
    for attempt in 0..16 {
        let beside = path.with_file_name(format!(".homvaits.{process}.{attempt}"));
        let mut options = OpenOptions::new();
        let options = options.write(true).create_new(true).mode(mode);
        match options.open(&beside) {
            Ok(file) => return Ok((beside, file)),
            Err(error) if error.kind() == ErrorKind::AlreadyExists => last = error,
            Err(error) => return Err(error),
        }
    }
    Err(last)
}
