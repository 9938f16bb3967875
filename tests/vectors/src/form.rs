//! The form of a file: blocks of lines with a blank line between them.

pub struct File {
    pub name: &'static str,
    blocks: Vec<String>,
}

impl File {
    /// A file that begins with these comment lines.
    pub fn new(name: &'static str, about: &[&str]) -> File {
        let mut file = File {
            name,
            blocks: Vec::new(),
        };
        let form = "docs/SHEET.md, section 15, tells the form of this file.";
        file.heading(&[about, &[form]].concat());
        file
    }

    /// A block of comment lines, which is no case.
    pub fn heading(&mut self, lines: &[&str]) {
        let comment = |line: &&str| format!("# {line}\n");
        self.blocks.push(lines.iter().map(comment).collect());
    }

    /// A case: what it shows, and its lines.
    pub fn case(&mut self, title: &str, lines: &[String]) {
        let lines: String = lines.iter().map(|line| format!("{line}\n")).collect();
        self.blocks.push(format!("# {title}\n{lines}"));
    }

    pub fn text(&self) -> String {
        let text = self.blocks.join("\n");
        assert!(text.is_ascii(), "{}", self.name);
        text
    }
}

/// Bytes in hexadecimal; no bytes are a hyphen.
pub fn hex(bytes: &[u8]) -> String {
    match bytes {
        [] => "-".to_string(),
        _ => bytes.iter().map(|byte| format!("{byte:02x}")).collect(),
    }
}

pub fn refused(number: u8, place: u64) -> String {
    format!("refused {number} place {place}")
}

/// Fails where the reference does not answer what the case says.
pub fn expect(title: &str, said: &str, answered: &str) {
    assert_eq!(said, answered, "{title}");
}
