//! The answers as JSON.

use std::path::Path;

use super::answers::Verdict;
use super::tally::Tally;
use crate::fields::Fields;
use crate::loads::loads;
use crate::wording;

pub const BEGIN: &str = "{\"sheets\":[";

/// What stands between two sheets. It stands before the first one too, and is cut off there.
pub const BETWEEN: &str = ",";

/// Adds a sheet on a line of its own.
pub fn add_sheet(text: &mut String, path: &Path, verdict: &Verdict) {
    text.push_str(BETWEEN);
    text.push_str("\n{\"path\":");
    add_string(text, &path.to_string_lossy());
    if path.to_str().is_none() {
        text.push_str(",\"path_hex\":\"");
        let bytes = path.as_os_str().as_encoded_bytes().iter();
        bytes.for_each(|byte| text.push_str(&format!("{byte:02x}")));
        text.push('"');
    }
    match verdict {
        Verdict::Accepted(bytes) => {
            let fields = Fields::new(bytes);
            let layout = fields.layout;
            text.push_str(&format!(
                ",\"accepted\":true,\"version\":{},\"tasks\":{},\"cores\":{},\"loads\":[{}]}}",
                fields.version().unwrap_or(0),
                layout.tasks,
                layout.cores,
                commas(&loads(bytes))
            ));
        }
        Verdict::Refused(refusal, bytes) => {
            text.push_str(&format!(
                ",\"accepted\":false,\"refusal\":{},\"word\":\"{}\",\"place\":{},\"where\":",
                refusal.number(),
                refusal.word.name(),
                refusal.place.number()
            ));
            match wording::place(*refusal, bytes) {
                Some(place) => add_string(text, &place),
                None => text.push_str("null"),
            }
            text.push_str(",\"text\":");
            add_string(text, wording::text(*refusal, bytes));
            text.push('}');
        }
        Verdict::NotRead(why) => {
            text.push_str(",\"error\":");
            add_string(text, why);
            text.push('}');
        }
    }
}

/// The end of the document.
pub fn end(tally: &Tally) -> String {
    format!(
        "\n],\"summary\":{{\"files\":{},\"accepted\":{},\"refused\":{},\"not_read\":{}}}}}\n",
        tally.files(),
        tally.accepted,
        tally.refused(),
        tally.not_read
    )
}

fn commas(numbers: &[u16]) -> String {
    let numbers: Vec<String> = numbers.iter().map(u16::to_string).collect();
    numbers.join(",")
}

/// Adds text as a JSON string.
fn add_string(text: &mut String, content: &str) {
    text.push('"');
    for letter in content.chars() {
        match letter {
            '"' | '\\' => text.extend(['\\', letter]),
            _ if letter.is_control() => text.push_str(&format!("\\u{:04x}", u32::from(letter))),
            _ => text.push(letter),
        }
    }
    text.push('"');
}

#[cfg(test)]
mod tests {
    use super::super::scratch::TWO_TASKS;
    use super::*;
    use std::ffi::OsStr;
    use std::os::unix::ffi::OsStrExt;

    fn sheet(path: &[u8], bytes: &[u8]) -> String {
        let verdict = match homvaits::check(bytes) {
            Ok(_) => Verdict::Accepted(bytes),
            Err(refusal) => Verdict::Refused(refusal, bytes),
        };
        let mut text = String::new();
        add_sheet(&mut text, Path::new(OsStr::from_bytes(path)), &verdict);
        text
    }

    #[test]
    fn a_path_is_a_string_whatever_its_bytes_are() {
        let path = b"a\"b\\c\n\x1b\x7f\xff\xc3\xbc/\xc2\x85";
        let text = sheet(path, b"");
        assert!(text.starts_with(
            ",\n{\"path\":\"a\\\"b\\\\c\\u000a\\u001b\\u007f\u{fffd}\u{fc}/\\u0085\",\"path_hex\":\"6122625c630a1b7fffc3bc2fc285\",\"accepted\":false,"
        ));
        assert_eq!(text.lines().count(), 2);
    }

    #[test]
    fn a_sheet_is_an_object() {
        let mut bytes = TWO_TASKS;
        assert_eq!(
            sheet(b"s", &bytes),
            ",\n{\"path\":\"s\",\"accepted\":true,\"version\":1,\"tasks\":2,\"cores\":1,\"loads\":[1000]}"
        );
        bytes[20] = 8;
        assert_eq!(
            sheet(b"s", &bytes),
            ",\n{\"path\":\"s\",\"accepted\":false,\"refusal\":14,\"word\":\"Overload\",\"place\":64,\
             \"where\":\"core 0\",\"text\":\"the core has more work than time\"}"
        );
        assert!(sheet(b"s", b"").contains("\"place\":0,\"where\":null,"));
        let mut text = String::new();
        add_sheet(
            &mut text,
            Path::new("s"),
            &Verdict::NotRead("a \"b\"".into()),
        );
        assert_eq!(text, ",\n{\"path\":\"s\",\"error\":\"a \\\"b\\\"\"}");
    }
}
