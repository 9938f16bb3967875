//! How many files were accepted, refused and not read.

use std::collections::BTreeMap;

use homvaits::Word;

use crate::failure::{FAILED, REFUSED, WELL};
use crate::wording::counted;

#[derive(Debug, Default, PartialEq, Eq)]
pub struct Tally {
    pub accepted: u64,
    /// By the number of the word: the word, and how many sheets it refuses.
    words: BTreeMap<u8, (&'static str, u64)>,
    pub not_read: u64,
}

impl Tally {
    pub fn refuse(&mut self, word: Word) {
        self.add_word(word.number(), word.name(), 1);
    }

    fn add_word(&mut self, number: u8, name: &'static str, count: u64) {
        self.words.entry(number).or_insert((name, 0)).1 += count;
    }

    pub fn add(&mut self, other: &Tally) {
        self.accepted += other.accepted;
        self.not_read += other.not_read;
        for (&number, &(name, count)) in &other.words {
            self.add_word(number, name, count);
        }
    }

    pub fn refused(&self) -> u64 {
        self.words.values().map(|(_, count)| count).sum()
    }

    pub fn files(&self) -> u64 {
        self.accepted + self.refused() + self.not_read
    }

    pub fn status(&self) -> u8 {
        match (self.not_read, self.refused()) {
            (0, 0) => WELL,
            (0, _) => REFUSED,
            _ => FAILED,
        }
    }

    /// `3 files: 1 accepted, 2 refused`, without what there is none of; and a line such as `refused: 1 Mark, 1 Overload` if any is.
    pub fn lines(&self) -> Vec<String> {
        let counts = [
            (self.accepted, "accepted"),
            (self.refused(), "refused"),
            (self.not_read, "not read"),
        ];
        let files = counted(self.files(), "file");
        let mut lines = vec![headed(&files, counts.into_iter())];
        if !self.words.is_empty() {
            let words = self.words.values().map(|&(name, count)| (count, name));
            lines.push(headed("refused", words));
        }
        lines
    }
}

/// `head: 1 one, 2 other`, without what there is none of; `head` alone if nothing is left.
fn headed(head: &str, counts: impl Iterator<Item = (u64, &'static str)>) -> String {
    let some = counts.filter(|(count, _)| *count > 0);
    let some: Vec<String> = some
        .map(|(count, what)| format!("{count} {what}"))
        .collect();
    match some.is_empty() {
        true => head.to_owned(),
        false => format!("{head}: {}", some.join(", ")),
    }
}

#[cfg(test)]
mod tests {
    use super::*;

    #[test]
    fn words_are_counted_and_stand_by_number() {
        let mut tally = Tally::default();
        assert_eq!(
            (tally.lines(), tally.status()),
            (vec!["0 files".to_owned()], WELL)
        );
        tally.accepted += 1;
        assert_eq!(
            (tally.lines(), tally.status()),
            (vec!["1 file: 1 accepted".to_owned()], WELL)
        );
        let mut other = Tally::default();
        for word in [Word::Overload, Word::Mark, Word::Overload, Word::Order] {
            other.refuse(word);
        }
        tally.refuse(Word::Mark);
        tally.add(&other);
        assert_eq!(tally.status(), REFUSED);
        tally.not_read += 1;
        let lines = [
            "7 files: 1 accepted, 5 refused, 1 not read",
            "refused: 2 Mark, 2 Overload, 1 Order",
        ];
        assert_eq!(tally.lines(), lines);
        assert_eq!(tally.status(), FAILED);
    }
}
