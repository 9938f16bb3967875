//! The files that paths stand for: a folder stands for every file in it and in the folders in it.

use std::ffi::{OsStr, OsString};
use std::fs::{self, DirEntry, FileType};
use std::path::{Path, PathBuf};

use super::progress::Progress;
use crate::files::words;
use crate::wording::counted;

/// A file to check, or something that cannot be checked, and why.
#[derive(Debug, PartialEq, Eq)]
pub struct Found {
    pub path: PathBuf,
    pub error: Option<Box<str>>,
}

pub struct Walked {
    pub files: Vec<Found>,
    /// Whether one of the paths is a folder.
    pub folder: bool,
}

/// What is still to be gone through.
enum Entry {
    Folder(PathBuf),
    Found(Found),
}

impl Entry {
    fn file(path: PathBuf) -> Entry {
        Entry::Found(Found { path, error: None })
    }

    fn failed(path: PathBuf, error: impl Into<Box<str>>) -> Entry {
        let error = Some(error.into());
        Entry::Found(Found { path, error })
    }

    fn path(&self) -> &OsStr {
        let (Entry::Folder(path) | Entry::Found(Found { path, .. })) = self;
        path.as_os_str()
    }
}

/// The files of these paths in order, those of a folder by name, bytewise, depth first. Of what is in folders and is no folder only
/// that whose name ends with `ending` is taken.
pub fn walk(paths: &[OsString], ending: &OsStr, progress: &mut Progress) -> Walked {
    // the last one is the next
    let mut rest: Vec<Entry> = paths.iter().rev().map(|path| named(path)).collect();
    let folder = rest.iter().any(|entry| matches!(entry, Entry::Folder(_)));
    let mut files = Vec::new();
    while let Some(entry) = rest.pop() {
        match entry {
            Entry::Folder(path) => rest.append(&mut inside(&path, ending)),
            Entry::Found(found) => files.push(found),
        }
        progress.show(|| format!("{} found", counted(files.len() as u64, "file")));
    }
    Walked { files, folder }
}

/// A path that the user named. What is no folder is read, whatever it is.
fn named(path: &OsStr) -> Entry {
    let path = PathBuf::from(path);
    match path.as_os_str() != "-" && path.is_dir() {
        true => Entry::Folder(path),
        false => Entry::file(path),
    }
}

/// What is in a folder, the last by name first. That the folder cannot be read, or not to its end, stands before all of it.
fn inside(folder: &Path, ending: &OsStr) -> Vec<Entry> {
    let failed = |error| Entry::failed(folder.to_owned(), words(&error));
    let entries = match fs::read_dir(folder) {
        Ok(entries) => entries,
        Err(error) => return vec![failed(error)],
    };
    let mut entries: Vec<Entry> = entries
        .filter_map(|entry| match entry {
            Ok(entry) => met(&entry, ending),
            Err(error) => Some(failed(error)),
        })
        .collect();
    // the paths differ in the names alone
    entries.sort_unstable_by(|a, b| b.path().cmp(a.path()));
    entries
}

/// Something in a folder; none if it is passed over.
fn met(entry: &DirEntry, ending: &OsStr) -> Option<Entry> {
    let path = entry.path();
    match entry.file_type() {
        Ok(kind) if kind.is_dir() => Some(Entry::Folder(path)),
        _ if !ends_with(&path, ending) => None,
        Ok(kind) if kind.is_symlink() => linked(path),
        Ok(kind) => Some(of_kind(path, kind)),
        Err(error) => Some(Entry::failed(path, words(&error))),
    }
}

fn ends_with(path: &Path, ending: &OsStr) -> bool {
    let name = path.file_name().unwrap_or_default().as_encoded_bytes();
    name.ends_with(ending.as_encoded_bytes())
}

/// What a link in a folder stands for; none if that is a folder.
fn linked(path: PathBuf) -> Option<Entry> {
    match fs::metadata(&path) {
        Ok(there) if there.is_dir() => None,
        Ok(there) => Some(of_kind(path, there.file_type())),
        Err(error) => Some(Entry::failed(path, words(&error))),
    }
}

/// What is no folder. Other things than files are not opened: that could wait for ever.
fn of_kind(path: PathBuf, kind: FileType) -> Entry {
    match kind.is_file() {
        true => Entry::file(path),
        false => Entry::failed(path, "it is neither a file nor a folder"),
    }
}

#[cfg(test)]
mod tests {
    use super::super::scratch::Scratch;
    use super::*;
    use std::os::unix::fs::symlink;
    use std::os::unix::net::UnixListener;

    /// What is found, without the folder in front, and with the error if there is one.
    fn found(folder: &Scratch, paths: &[&str], ending: &str) -> (Vec<String>, bool) {
        let paths = paths.iter().map(|path| folder.path().join(path).into());
        let paths: Vec<OsString> = paths.collect();
        let walked = walk(&paths, OsStr::new(ending), &mut Progress::new());
        let line = |found: &Found| {
            let path = found.path.strip_prefix(folder.path()).unwrap();
            let path = path.to_string_lossy();
            match &found.error {
                Some(error) => format!("{path}: {error}"),
                None => path.into_owned(),
            }
        };
        (walked.files.iter().map(line).collect(), walked.folder)
    }

    #[test]
    fn a_folder_is_gone_through_by_name() {
        let folder = Scratch::new();
        for name in [
            "d/b", "d/a/z", "d/a/y", "d/a.x", "d/a-", "d/B", "d/.c", "d/e/f/g", "other",
        ] {
            folder.file(name, b"");
        }
        fs::create_dir(folder.path().join("d/empty")).unwrap();
        let all = [
            "d/.c", "d/B", "d/a/y", "d/a/z", "d/a-", "d/a.x", "d/b", "d/e/f/g",
        ];
        let all: Vec<String> = all.map(str::to_owned).into();
        assert_eq!(found(&folder, &["d"], ""), (all, true));
        let some = vec!["d/a.x".to_owned()];
        assert_eq!(found(&folder, &["d"], ".x"), (some, true));
        let named = ["other", "d/e", "other", "none"];
        let files = ["other", "other", "none"].map(str::to_owned).into();
        assert_eq!(found(&folder, &named, "z"), (files, true));
        assert!(!found(&folder, &["other"], "z").1);
    }

    #[test]
    fn links_are_followed_to_files_alone_and_to_folders_that_are_named() {
        let folder = Scratch::new();
        folder.file("d/a", b"");
        let link = |to: &str, name: &str| symlink(to, folder.path().join(name)).unwrap();
        link("a", "d/link");
        link(".", "d/loop");
        link("nothing", "d/nowhere");
        link("turn", "d/turn");
        link("d", "named");
        let all = |under: &str| -> Vec<String> {
            let all = [
                "a",
                "link",
                "nowhere: No such file or directory",
                "turn: Too many levels of symbolic links",
            ];
            all.map(|name| format!("{under}/{name}")).into()
        };
        assert_eq!(found(&folder, &["d"], ""), (all("d"), true));
        assert_eq!(found(&folder, &["named"], ""), (all("named"), true));
    }

    #[test]
    fn other_things_are_not_opened() {
        let folder = Scratch::new();
        folder.file("d/a", b"");
        let _socket = UnixListener::bind(folder.path().join("d/socket")).unwrap();
        symlink("socket", folder.path().join("d/to")).unwrap();
        let other = "it is neither a file nor a folder";
        let all = vec![
            "d/a".to_owned(),
            format!("d/socket: {other}"),
            format!("d/to: {other}"),
        ];
        assert_eq!(found(&folder, &["d"], "").0, all);
        assert_eq!(found(&folder, &["d"], "a").0, ["d/a"]);
        assert_eq!(
            found(&folder, &["d/socket"], ""),
            (vec!["d/socket".to_owned()], false)
        );
    }

    #[test]
    fn standard_input_is_no_folder() {
        let walked = walk(&["-".into()], OsStr::new("x"), &mut Progress::new());
        let path = "-".into();
        assert_eq!(walked.files, [Found { path, error: None }]);
    }
}
