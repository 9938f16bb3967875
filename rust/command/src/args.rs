//! The words after the command's name: options, and files.

use std::ffi::{OsStr, OsString};

use crate::failure::Failure;
use crate::wording::quoted;

/// An option, and the name of its value if it has one.
#[derive(Clone, Copy)]
pub struct OptionSpec {
    pub name: &'static str,
    pub value: Option<&'static str>,
}

pub const fn flag(name: &'static str) -> OptionSpec {
    OptionSpec { name, value: None }
}

pub const fn valued(name: &'static str, value: &'static str) -> OptionSpec {
    let value = Some(value);
    OptionSpec { name, value }
}

/// The words, sorted into options and files.
#[derive(Debug, Default)]
pub struct Args {
    /// Options that were given, with their values.
    given: Vec<(&'static str, OsString)>,
    pub files: Vec<OsString>,
}

impl Args {
    /// Sorts the words. Each option is given once at most; `--` ends them; `--name=value` is `--name value`, and `-oFILE` and `-o=FILE` are `-o FILE`.
    pub fn parse(
        words: impl IntoIterator<Item = OsString>,
        options: &[OptionSpec],
    ) -> Result<Args, Failure> {
        let mut args = Args::default();
        let mut words = words.into_iter();
        while let Some(word) = words.next() {
            let bytes = word.as_encoded_bytes();
            if bytes == b"--" {
                args.files.extend(words.by_ref());
            } else if bytes.len() < 2 || bytes[0] != b'-' {
                args.files.push(word);
            } else {
                args.take(&word, &mut words, options)?;
            }
        }
        Ok(args)
    }

    fn take(
        &mut self,
        word: &OsStr,
        words: &mut impl Iterator<Item = OsString>,
        options: &[OptionSpec],
    ) -> Result<(), Failure> {
        let text = word.to_str().unwrap_or_default();
        let (name, joined) = match text.split_once('=') {
            Some((name, value)) if name.starts_with("--") => (name, Some(OsString::from(value))),
            _ => match text.split_at_checked(2) {
                Some((name, value)) if name != "--" && !value.is_empty() => {
                    let value = value.strip_prefix('=').unwrap_or(value);
                    (name, Some(OsString::from(value)))
                }
                _ => (text, None),
            },
        };
        let Some(option) = options.iter().find(|option| option.name == name) else {
            return Err(unknown(word, options));
        };
        let value = match (option.value, joined) {
            (None, None) => OsString::new(),
            (None, Some(_)) => {
                return Err(Failure::new(format!("{name} takes no value")));
            }
            (Some(_), Some(value)) => value,
            (Some(what), None) => words
                .next()
                .ok_or_else(|| Failure::new(format!("{name} wants a value: {name} {what}")))?,
        };
        if self.has(name) {
            return Err(Failure::new(format!("{name} is given twice")));
        }
        self.given.push((option.name, value));
        Ok(())
    }

    pub fn has(&self, name: &str) -> bool {
        self.value(name).is_some()
    }

    pub fn value(&self, name: &str) -> Option<&OsStr> {
        let found = self.given.iter().find(|(given, _)| *given == name);
        found.map(|(_, value)| value.as_os_str())
    }

    /// The value as a number from `low` to `high`.
    pub fn number(&self, name: &str, low: u64, high: u64) -> Result<Option<u64>, Failure> {
        let Some(value) = self.value(name) else {
            return Ok(None);
        };
        let number = value.to_str().and_then(decimal);
        match number {
            Some(number) if (low..=high).contains(&number) => Ok(Some(number)),
            _ => Err(Failure::new(format!(
                "{name} {} is not a number from {low} to {high}",
                quoted(&value.to_string_lossy())
            ))),
        }
    }

    /// The one file of a command.
    pub fn one_file(&self, what: &str) -> Result<&OsStr, Failure> {
        match self.files.as_slice() {
            [file] => Ok(file),
            [] => Err(Failure::new(format!(
                "no {what} is named; --help tells how"
            ))),
            [_, next, ..] => Err(Failure::new(format!(
                "one {what} at a time: {} is one too many",
                quoted(&next.to_string_lossy())
            ))),
        }
    }

    /// Of these options at most one is given.
    pub fn at_most_one(&self, names: &[&str]) -> Result<(), Failure> {
        let mut given = names.iter().filter(|name| self.has(name));
        match (given.next(), given.next()) {
            (Some(one), Some(other)) => Err(Failure::new(format!(
                "{one} and {other} do not go together"
            ))),
            _ => Ok(()),
        }
    }
}

fn unknown(word: &OsStr, options: &[OptionSpec]) -> Failure {
    let names: Vec<&str> = options.iter().map(|option| option.name).collect();
    let word = quoted(&word.to_string_lossy());
    Failure::new(match names.is_empty() {
        true => format!("there is no option {word}: this command has none but --help"),
        false => format!("there is no option {word}: there are {}", names.join(", ")),
    })
}

/// A decimal number without a sign.
pub fn decimal(text: &str) -> Option<u64> {
    let digits = !text.is_empty() && text.bytes().all(|byte| byte.is_ascii_digit());
    digits.then(|| text.parse().ok()).flatten()
}

#[cfg(test)]
mod tests {
    use super::*;

    const OPTIONS: [OptionSpec; 3] = [flag("--quiet"), valued("-o", "FILE"), valued("--core", "K")];

    fn parse(words: &[&str]) -> Result<Args, Failure> {
        Args::parse(words.iter().map(OsString::from), &OPTIONS)
    }

    #[test]
    fn options_and_files_stand_in_any_order() {
        let args = parse(&["a", "--quiet", "-o-", "--core=3", "-", "--", "-b"]).unwrap();
        assert_eq!(args.files, ["a", "-", "-b"]);
        assert!(args.has("--quiet"));
        assert_eq!(args.value("-o"), Some(OsStr::new("-")));
        assert_eq!(args.number("--core", 0, 7), Ok(Some(3)));
        assert!(args.number("--core", 0, 2).is_err());
        assert_eq!(args.number("--ticks", 0, 2), Ok(None));
    }

    #[test]
    fn what_is_wrong_is_told() {
        for (words, part) in [
            (&["--loud"][..], "there is no option `--loud`"),
            (&["-o"], "-o wants a value"),
            (&["--quiet=1"], "--quiet takes no value"),
            (&["--quiet", "--quiet"], "--quiet is given twice"),
            (&["-x=x"], "there is no option `-x=x`"),
        ] {
            let text = parse(words).unwrap_err().text;
            assert!(text.contains(part), "{words:?}: {text}");
        }
        let args = parse(&["--core", "+3"]).unwrap();
        assert!(args.number("--core", 0, 7).is_err());
    }
}
