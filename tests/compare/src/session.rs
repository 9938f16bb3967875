//! What has been compared so far, and how a difference is told.

use std::collections::{BTreeMap, BTreeSet};
use std::fmt::Debug;
use std::ops::Range;
use std::process::exit;

/// A refusal, 0 where nothing is refused, and which kind of it.
pub type Kind = (u8, &'static str);

#[derive(Default)]
pub struct Session {
    pub cases: u64,
    seen: BTreeSet<(&'static str, Kind)>,
    // of a call and a kind, a bit for each place at which it occurred
    seen_at: BTreeMap<(&'static str, &'static str), u128>,
}

impl Session {
    /// Count a case of this call: its refusal and place, and what it is a case
    /// of where it is accepted.
    pub fn case(&mut self, call: &'static str, refusal: u8, place: u16, accepted: &'static str) {
        self.cases += 1;
        let kind = match refusal {
            0 => accepted,
            _ => kind_of_place(refusal, place),
        };
        self.saw(call, (refusal, kind));
    }

    pub fn saw(&mut self, call: &'static str, kind: Kind) {
        self.seen.insert((call, kind));
    }

    /// Note a kind at these places, a bit for each.
    pub fn saw_at(&mut self, call: &'static str, kind: &'static str, places: u128) {
        *self.seen_at.entry((call, kind)).or_default() |= places;
    }

    /// Fail if there is one of these places at which this kind never occurred.
    pub fn must_have_seen_at(&self, call: &'static str, kind: &'static str, places: Range<u32>) {
        let seen = self.seen_at.get(&(call, kind)).copied().unwrap_or(0);
        let missing: Vec<u32> = places.filter(|place| seen >> place & 1 == 0).collect();
        if !missing.is_empty() {
            println!("compare: {call} never saw {kind} at {missing:?}; more rounds?");
            exit(1);
        }
    }

    /// Fail if one of these kinds never occurred.
    pub fn must_have_seen(&self, call: &'static str, kinds: &[Kind]) {
        let missing: Vec<&Kind> = kinds
            .iter()
            .filter(|&&kind| !self.seen.contains(&(call, kind)))
            .collect();
        if !missing.is_empty() {
            println!("compare: {call} never answered {missing:?}; more rounds?");
            exit(1);
        }
    }
}

/// Place 0 may be task 0 or none.
fn kind_of_place(refusal: u8, place: u16) -> &'static str {
    match (refusal, place) {
        (6, _) => "a byte",
        (_, 0) => "place 0",
        (_, 1..64) => "a task above 0",
        (_, 64) => "core 0",
        _ => "a core above 0",
    }
}

/// Fail unless both sides gave the same.
pub fn same<T: PartialEq + Debug>(
    call: &str,
    input: impl Fn() -> String,
    reference: &T,
    library: &T,
) {
    if reference != library {
        let sides = format!("reference {reference:?}\n  library   {library:?}");
        fail(call, &input(), &sides);
    }
}

pub fn fail(call: &str, input: &str, what: &str) -> ! {
    println!("compare: difference in {call}\n  input {input}\n  {what}");
    exit(1);
}

pub fn hex(bytes: &[u8]) -> String {
    bytes.iter().map(|byte| format!("{byte:02x}")).collect()
}
