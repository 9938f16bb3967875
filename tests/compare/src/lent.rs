//! Lent buffers.

use crate::session::{fail, hex};
use inputs::Rng;
use reference::Core;

/// A buffer to lend, with bytes before and behind it that nobody may write.
#[derive(Clone)]
pub struct Lent {
    bytes: Vec<u8>,
    start: usize,
}

const MARGIN: usize = 32;

impl Lent {
    /// A buffer of this length that holds something of its own.
    pub fn new(length: usize, first: u8) -> Lent {
        Lent::shifted(length, first, 0)
    }

    /// Such a buffer so many bytes further into its allocation.
    pub fn shifted(length: usize, first: u8, shift: usize) -> Lent {
        let byte = |i: usize| first.wrapping_add((7 * i) as u8);
        Lent {
            bytes: (0..shift + length + 2 * MARGIN).map(byte).collect(),
            start: shift + MARGIN,
        }
    }

    pub fn lend(&mut self) -> &mut [u8] {
        let end = self.bytes.len() - MARGIN;
        &mut self.bytes[self.start..end]
    }
}

/// Fail unless both buffers hold the same, the bytes about them included.
pub fn same_bytes(call: &str, input: impl Fn() -> String, reference: &Lent, library: &Lent) {
    if reference.bytes != library.bytes {
        let sides = format!(
            "reference wrote {}\n  library wrote   {}",
            hex(&reference.bytes),
            hex(&library.bytes)
        );
        fail(call, &input(), &sides);
    }
}

/// A row of states to lend. Its bytes are all set, also those that belong to no
/// field; before it and behind it stands a state that nobody may write.
#[derive(Clone)]
pub struct LentRow {
    words: Vec<u64>,
}

const WORDS: usize = size_of::<Core>() / size_of::<u64>();

impl LentRow {
    /// A row of these states between two others.
    pub fn new(rng: &mut Rng, states: &[Core], about: [Core; 2]) -> LentRow {
        let length = WORDS * (states.len() + 2);
        let mut row = LentRow {
            words: (0..length).map(|_| rng.word()).collect(),
        };
        let [before, behind] = &about;
        let all = [before].into_iter().chain(states).chain([behind]);
        for (place, core) in row.all().iter_mut().zip(all) {
            write(place, core);
        }
        row
    }

    pub fn states(&self) -> &[Core] {
        // as in `all`
        let words = &self.words[WORDS..];
        let count = words.len() / WORDS - 1;
        unsafe { std::slice::from_raw_parts(words.as_ptr().cast(), count) }
    }

    pub fn lend(&mut self) -> &mut [Core] {
        let all = self.all();
        let end = all.len() - 1;
        &mut all[1..end]
    }

    /// Put a state into the row; the bytes that belong to no field stay.
    pub fn put(&mut self, position: usize, core: &Core) {
        write(&mut self.lend()[position], core);
    }

    fn all(&mut self) -> &mut [Core] {
        // so many whole states, aligned as words are, and any bytes are a state
        let count = self.words.len() / WORDS;
        unsafe { std::slice::from_raw_parts_mut(self.words.as_mut_ptr().cast(), count) }
    }
}

/// Write a state field by field.
fn write(place: &mut Core, core: &Core) {
    place.count = core.count;
    for (place, task) in place.tasks.iter_mut().zip(&core.tasks) {
        place.period = task.period;
        place.budget = task.budget;
        place.age = task.age;
        place.left = task.left;
        place.number = task.number;
        place.stroke = task.stroke;
    }
    place.stroke_task = core.stroke_task;
    place.stroke_left = core.stroke_left;
}

/// Fail unless the bytes about a row are what they were before the call, and
/// those of a refused row too.
pub fn same_row(
    call: &str,
    input: impl Fn() -> String,
    before: &LentRow,
    after: &LentRow,
    refused: bool,
) {
    let (length, end) = (before.words.len(), before.words.len() - WORDS);
    let about = (0..WORDS).chain(end..length);
    let within = if refused { WORDS..end } else { 0..0 };
    let changed = |&at: &usize| before.words[at] != after.words[at];
    if let Some(at) = about.chain(within).find(changed) {
        let offset = 8 * (at as i64 - WORDS as i64);
        let bytes = |row: &LentRow| hex(&row.words[at].to_le_bytes());
        let sides = format!("before {}\n  after  {}", bytes(before), bytes(after));
        let what = format!("the bytes of the row from offset {offset}\n  {sides}");
        fail(call, &input(), &what);
    }
}
