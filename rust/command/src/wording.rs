//! Refusals and counts in words.

use homvaits::{Place, Refusal, Word};

use crate::fields::{Fields, Version};

/// Where a refused sheet breaks its rule: `task 3`, in version 2 `position 3`, `core 0`, `byte 13`, or nothing.
pub fn place(refusal: Refusal, bytes: &[u8]) -> Option<String> {
    match refusal.place {
        Place::Whole => None,
        Place::Task(task) if Version::of(bytes) == Some(Version::ByCore) => {
            Some(format!("position {task}"))
        }
        Place::Task(task) => Some(format!("task {task}")),
        Place::Core(core) => Some(format!("core {core}")),
        Place::Offset(offset) => Some(format!("byte {offset}")),
        other => Some(format!("place {}", other.number())),
    }
}

/// What a refusal says of bytes, such as `the core has more work than time`.
pub fn text(refusal: Refusal, bytes: &[u8]) -> &'static str {
    match (refusal.word, Version::of(bytes)) {
        (Word::Version, Some(Version::Strokes)) => {
            "a sheet of version 3 is not moved, since version 2 has no place for strokes"
        }
        (Word::Version, _) => "the version is not 1, 2 or 3",
        (Word::Overload, Some(Version::Strokes)) => {
            "the core has more work than time, or its strokes are too long"
        }
        (word, _) => word.text(),
    }
}

/// A refused sheet in one line: `refused 14 (Overload) at core 0: the core has more work than time`.
pub fn refused(refusal: Refusal, bytes: &[u8]) -> String {
    let word = refusal.word;
    let place = match place(refusal, bytes) {
        Some(place) => format!(" at {place}"),
        None => String::new(),
    };
    format!(
        "refused {} ({}){place}: {}",
        word.number(),
        word.name(),
        text(refusal, bytes)
    )
}

/// An accepted sheet: `accepted: version 1, 10 tasks on 2 cores, loads 953 and 720`, the loads in thousandths.
pub fn accepted(bytes: &[u8], loads: &[u16]) -> String {
    let fields = Fields::new(bytes);
    let layout = fields.layout;
    let loads = match loads {
        [] => String::new(),
        [load] => format!(", load {load}"),
        loads => format!(", loads {}", joined(loads)),
    };
    format!(
        "accepted: version {}, {} on {}{loads}",
        fields.version().unwrap_or(0),
        counted(layout.tasks.into(), "task"),
        counted(layout.cores.into(), "core")
    )
}

/// A count and its noun, which takes an s: `1 task`, `2 tasks`.
pub fn counted(count: u64, noun: &str) -> String {
    match count {
        1 => format!("1 {noun}"),
        _ => format!("{count} {noun}s"),
    }
}

/// Things one after the other: `1`, `1 and 2`, `1, 2 and 3`.
pub fn joined<T: ToString>(things: &[T]) -> String {
    let words: Vec<String> = things.iter().map(T::to_string).collect();
    match words.split_last() {
        Some((last, front)) if !front.is_empty() => format!("{} and {last}", front.join(", ")),
        _ => words.concat(),
    }
}

/// Whether every character of a text prints, so that it can be shown as it is.
pub fn prints(text: &str) -> bool {
    let plain = |letter: char| matches!(letter, '\\' | '\'' | '"');
    let escaped = text.escape_debug().count();
    escaped == text.chars().count() + text.chars().filter(|&letter| plain(letter)).count()
}

/// Characters of a wrong word that are shown.
const SHOWN: usize = 40;

/// A word that someone wrote, as it is shown: on one line, and cut if it is long.
pub fn quoted(word: &str) -> String {
    let shown: String = word.chars().take(SHOWN).collect();
    let rest = if shown.len() < word.len() { ".." } else { "" };
    format!("`{}{rest}`", shown.escape_debug())
}
