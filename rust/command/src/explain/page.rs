//! A page of text: sections, each with its heading, paragraphs and tables.

use crate::table::Table;

/// Columns that a paragraph may take.
const WIDTH: usize = 96;

const INDENT: &str = "  ";

/// A blank at which a paragraph is not broken.
const NO_BREAK: char = '\u{a0}';

/// A formula, which stays on its line.
pub fn unbroken(formula: &str) -> String {
    formula.replace(' ', &NO_BREAK.to_string())
}

#[derive(Default)]
pub struct Page {
    pub lines: Vec<String>,
    /// Whether the last line is a heading.
    headed: bool,
}

impl Page {
    /// A section begins, after a blank line.
    pub fn section(&mut self, heading: &str) {
        self.lines.push(String::new());
        self.lines.push(heading.to_owned());
        self.headed = true;
    }

    /// A blank line, but not below a heading.
    pub fn blank(&mut self) {
        if !self.headed {
            self.lines.push(String::new());
        }
    }

    /// A line as it stands.
    pub fn line(&mut self, text: &str) {
        self.lines.push(format!("{INDENT}{text}"));
        self.headed = false;
    }

    /// A paragraph, broken into lines at its blanks.
    pub fn paragraph(&mut self, text: &str) {
        let mut line = String::new();
        for word in text.split(' ') {
            let columns = INDENT.len() + line.chars().count() + 1 + word.chars().count();
            if !line.is_empty() && columns > WIDTH {
                self.line(&line.replace(NO_BREAK, " "));
                line.clear();
            }
            if !line.is_empty() {
                line.push(' ');
            }
            line.push_str(word);
        }
        if !line.is_empty() {
            self.line(&line.replace(NO_BREAK, " "));
        }
    }

    pub fn table(&mut self, table: &Table) {
        for line in table.lines() {
            self.line(&line);
        }
    }
}

/// Bytes in hexadecimal.
pub fn hex(bytes: &[u8]) -> String {
    let bytes: Vec<String> = bytes.iter().map(|byte| format!("{byte:02x}")).collect();
    bytes.join(" ")
}

/// Bytes as text, if all of them can be printed.
pub fn printable(bytes: &[u8]) -> Option<String> {
    let all = bytes.iter().all(|byte| matches!(byte, b' '..=b'~'));
    all.then(|| String::from_utf8_lossy(bytes).into_owned())
}

#[cfg(test)]
mod tests {
    use super::*;

    #[test]
    fn a_paragraph_is_broken_at_its_blanks_alone() {
        let mut page = Page::default();
        let text = format!(
            "{} {} end",
            "word ".repeat(18).trim_end(),
            unbroken("a = b + c")
        );
        page.paragraph(&text);
        let lines = ["  word word", "  a = b + c end"];
        assert_eq!(page.lines.len(), 2);
        assert!(page.lines[0].starts_with(lines[0]) && page.lines[0].len() <= WIDTH);
        assert_eq!(page.lines[1], lines[1]);
        page.paragraph(&"x".repeat(200));
        assert_eq!(page.lines[2].len(), 202);
        page.paragraph("");
        assert_eq!(page.lines.len(), 3);
    }

    #[test]
    fn bytes_as_hexadecimal_and_as_text() {
        assert_eq!(hex(&[0x54, 0, 0xAF]), "54 00 af");
        assert_eq!(printable(b"# p").as_deref(), Some("# p"));
        assert_eq!(printable(&[0x7F, b'E', b'L']), None);
        assert_eq!(printable("T\u{e9}".as_bytes()), None);
    }
}
