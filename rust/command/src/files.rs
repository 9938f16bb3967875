//! Files that are read, and what is said of them.

use std::ffi::OsStr;
use std::fs::File;
use std::io::{self, Read, Write};

use crate::failure::Failure;
use crate::wording;

/// A path as it is shown: where it has characters that do not print, all that is not plain is escaped, so that it stays on its line.
pub fn shown(path: &OsStr) -> String {
    let text = path.to_string_lossy();
    if path == "-" {
        "standard input".to_owned()
    } else if path.is_empty() {
        "the empty name".to_owned()
    } else if wording::prints(&text) {
        text.into_owned()
    } else {
        text.escape_debug().to_string()
    }
}

/// The words of an error of the system, without its number.
pub fn words(error: &io::Error) -> String {
    let text = error.to_string();
    match text.find(" (os error") {
        Some(end) => text[..end].to_owned(),
        None => text,
    }
}

/// Something that could not be done with a file.
pub fn failed(path: &OsStr, error: &io::Error) -> Failure {
    Failure::new(format!("{}: {}", shown(path), words(error)))
}

/// Says something on standard error. Where that fails there is nobody to tell.
pub fn tell(text: &str) {
    let _ = writeln!(io::stderr(), "{text}");
}

/// At most `limit` bytes of a file; `-` is standard input.
pub fn read_front(path: &OsStr, limit: usize) -> Result<Vec<u8>, Failure> {
    let mut bytes = Vec::new();
    let limit = limit as u64;
    let result = match path == "-" {
        true => io::stdin().lock().take(limit).read_to_end(&mut bytes),
        false => File::open(path).and_then(|file| file.take(limit).read_to_end(&mut bytes)),
    };
    match result {
        Ok(_) => Ok(bytes),
        Err(error) => Err(failed(path, &error)),
    }
}

/// A whole file that has at most `limit` bytes.
pub fn read_whole(path: &OsStr, limit: usize) -> Result<Vec<u8>, Failure> {
    let bytes = read_front(path, limit + 1)?;
    if bytes.len() > limit {
        let path = shown(path);
        return Err(Failure::new(format!(
            "{path}: it is longer than {limit} bytes"
        )));
    }
    Ok(bytes)
}

/// Text without the mark that some editors put in front of it.
pub fn without_byte_order_mark(bytes: &[u8]) -> &[u8] {
    bytes.strip_prefix(b"\xef\xbb\xbf").unwrap_or(bytes)
}
