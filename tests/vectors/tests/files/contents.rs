//! What cases the files must have, so that an edit cannot lose them.

use super::{bytes, cases, field, folder, Case, FILES};
use reference::{construction_of, Construction, Job};
use std::collections::{BTreeMap, BTreeSet};
use std::fs;

/// How many cases have each refusal, and the places it has.
#[derive(Default)]
struct Refusals(BTreeMap<u64, Vec<u64>>);

impl Refusals {
    fn of<'a>(lines: impl Iterator<Item = &'a String>) -> Refusals {
        let mut refusals = Refusals::default();
        for line in lines {
            let words: Vec<&str> = line.split(' ').collect();
            if let [.., "refused", number, "place", place] = words[..] {
                let places = refusals.0.entry(super::number(number)).or_default();
                places.push(super::number(place));
            }
        }
        refusals
    }

    /// These numbers and no others, each so many times at least.
    fn are(&self, numbers: &[u64], least: usize) {
        let seen: BTreeSet<u64> = self.0.keys().copied().collect();
        assert_eq!(seen, numbers.iter().copied().collect());
        for (number, places) in &self.0 {
            assert!(places.len() >= least, "{number}: {}", places.len());
        }
    }
}

fn refusals(cases: &[Case]) -> Refusals {
    Refusals::of(cases.iter().flat_map(|case| &case.lines))
}

fn has(cases: &[Case], line: &str) -> bool {
    cases
        .iter()
        .any(|case| case.lines.iter().any(|l| l == line))
}

/// A case of which the title says that a rule is named before another.
fn names_before(cases: &[Case], first: u64, second: u64) -> bool {
    cases.iter().any(|Case { title, lines }| {
        title.starts_with(&format!("{first} "))
            && format!("{title} ").contains(&format!(" before {second} "))
            && lines
                .iter()
                .any(|line| line.starts_with(&format!("refused {first} ")))
    })
}

#[test]
fn folder_and_form() {
    let files = fs::read_dir(folder()).expect("vectors/");
    let name = |file: std::io::Result<fs::DirEntry>| file.expect("a file").file_name();
    let mut names: Vec<_> = files.map(name).collect();
    names.sort();
    assert_eq!(names, FILES);
    let mut count = 0;
    for file in FILES {
        let text = fs::read_to_string(folder().join(file)).expect(file);
        assert!(text.is_ascii() && !text.contains('\r') && text.ends_with('\n'));
        assert!(text.lines().all(|line| line.trim_end() == line));
        let mut seen = BTreeSet::new();
        for Case { title, lines } in cases(file) {
            count += 1;
            assert!(!title.is_empty(), "{file}: {lines:?}");
            let asked: Vec<&str> = lines
                .iter()
                .take_while(|line| !line.starts_with("accepted") && !line.starts_with("refused"))
                .map(|line| line.split(" -> ").next().expect("a first part"))
                .collect();
            assert!(seen.insert(asked.join("\n")), "{file}: {title}: twice");
        }
    }
    assert!(count >= 300, "{count}");
}

/// The cases that the document shows are those of the files.
#[test]
fn examples_of_the_document() {
    let document = folder().join("../docs/SHEET.md");
    let text = fs::read_to_string(document).expect("docs/SHEET.md");
    let (_, section) = text.split_once("\n## 15 Vectors\n").expect("section 15");
    let indented = |line: &str| line.strip_prefix("    ").unwrap_or("").to_string();
    let lines: Vec<String> = section.lines().map(indented).collect();
    let examples: Vec<&[String]> = lines
        .split(|line| line.is_empty())
        .filter(|example| !example.is_empty())
        .collect();
    assert_eq!(examples.len(), 2);
    for (example, file) in examples.iter().zip(["check-1.txt", "run.txt"]) {
        let is_it =
            |case: &Case| format!("# {}", case.title) == example[0] && case.lines == example[1..];
        assert!(cases(file).iter().any(is_it), "{example:?}");
    }
}

#[test]
fn checks() {
    let orders: [&[u64]; 3] = [
        &[1, 2, 3, 4, 5, 6, 7, 8, 9, 10, 11, 12, 13, 14],
        &[1, 2, 3, 4, 5, 6, 7, 8, 23, 10, 11, 12, 13, 14],
        &[1, 2, 3, 4, 5, 6, 7, 8, 25, 9, 10, 11, 12, 13, 14],
    ];
    for (version, order) in (1..).zip(orders) {
        let cases = cases(&format!("check-{version}.txt"));
        let refusals = refusals(&cases);
        refusals.are(order, 3);
        for (number, places) in &refusals.0 {
            let places: BTreeSet<&u64> = places.iter().collect();
            let named = !matches!(number, 1..=5 | 23);
            let least = if named { 3 } else { 1 };
            assert!(places.len() >= least, "version {version}: {number}");
        }
        for pair in order.windows(2) {
            let named = names_before(&cases, pair[0], pair[1]);
            assert!(named, "version {version}: {pair:?}");
        }
        assert!(names_before(&cases, 11, 11));
        for (tasks, cores) in [(0, 0), (1, 1), (2, 1), (5, 2), (3, 3), (64, 8)] {
            let accepted = format!("accepted tasks {tasks} cores {cores}");
            assert!(has(&cases, &accepted), "version {version}: {accepted}");
            let listed = format!("| TSH {version} tasks {tasks} cores {cores}");
            assert!(has(&cases, &listed), "version {version}: {listed}");
        }
        assert!(has(&cases, "| core 0 pivot 9 divisor 2 load 1000"));
    }
}

#[test]
fn listings() {
    let cases = cases("list.txt");
    for line in ["room 8191", "refused 16 place 0", "| refused 14 place 64"] {
        assert!(has(&cases, line), "{line}");
    }
}

/// The construction of a plan on one core.
fn construction(Case { lines, .. }: &Case) -> Option<Construction> {
    if !lines[4].contains(" cores 1 ") {
        return None;
    }
    let two = |bytes: &[u8]| bytes[0] as u64 + 256 * bytes[1] as u64;
    let job = |entry: &[u8]| Job {
        period: two(entry),
        budget: two(&entry[2..]),
    };
    let list = bytes(field(&lines[0], "list"));
    construction_of(&list.chunks(4).map(job).collect::<Vec<Job>>())
}

#[test]
fn plans() {
    let cases = cases("plan.txt");
    refusals(&cases).are(&[5, 4, 7, 8, 22, 16, 15], 3);
    for pair in [5, 4, 7, 8, 22, 16, 15].windows(2) {
        assert!(names_before(&cases, pair[0], pair[1]), "{pair:?}");
    }
    let constructions: Vec<Construction> = cases.iter().filter_map(construction).collect();
    for construction in [
        Construction::Sr { base: 2 },
        Construction::Sr { base: 3 },
        Construction::Dct,
    ] {
        assert!(constructions.contains(&construction), "{construction:?}");
    }
    assert!(has(&cases, "accepted tasks 0 cores 0 length 8"));
    assert!(has(&cases, "accepted tasks 64 cores 8 length 712"));
}

#[test]
fn moves() {
    let cases = cases("move.txt");
    let numbers: Vec<u64> = (1..=14).chain([16, 23]).collect();
    refusals(&cases).are(&numbers, 1);
    for version in [1, 2, 3] {
        let of_version =
            |case: &&Case| bytes(field(&case.lines[0], "sheet")).get(3) == Some(&version);
        let accepted = |case: &&Case| case.lines[2].starts_with("accepted");
        let moved = cases.iter().filter(of_version).filter(accepted).count();
        assert!((version < 3) == (moved >= 3), "version {version}: {moved}");
        assert!(cases.iter().filter(of_version).any(|case| !accepted(&case)));
    }
}

#[test]
fn margins() {
    let cases = cases("margin.txt");
    refusals(&cases).are(&[5, 4, 7, 8, 17], 1);
    let lines = cases.iter().flat_map(|case| &case.lines);
    let margins: Vec<i64> = lines
        .filter_map(|line| line.split(" -> ").nth(1)?.parse().ok())
        .collect();
    assert!(margins.contains(&0) && margins.contains(&-7_559_874) && margins.contains(&59_999));
}

/// The answers to calls that begin with a word.
fn answers<'a>(cases: &'a [Case], word: &'a str) -> impl Iterator<Item = &'a String> {
    let lines = cases.iter().flat_map(|case| &case.lines);
    lines.filter(move |line| line.split(' ').next() == Some(word))
}

#[test]
fn runs() {
    let cases = cases("run.txt");
    Refusals::of(answers(&cases, "start")).are(&[1, 4, 5, 7, 8, 9, 14, 23, 25], 1);
    Refusals::of(answers(&cases, "release")).are(&[17, 18, 19], 2);
    Refusals::of(answers(&cases, "finish")).are(&[17, 20], 2);
    Refusals::of(answers(&cases, "tick")).are(&[], 0);
    for line in [
        "tick -> idle",
        "tick -> 0",
        "finish 0 -> accepted",
        "start -> accepted",
    ] {
        assert!(has(&cases, line), "{line}");
    }
    for version in [1, 2, 3] {
        let started = |case: &Case| {
            case.lines[0].starts_with(&format!("sheet 545348{version:02x}00"))
                && case.lines[1].ends_with("-> accepted")
        };
        assert!(cases.iter().any(started), "version {version}");
    }
}

#[test]
fn rows() {
    let cases = cases("row.txt");
    Refusals::of(answers(&cases, "row")).are(&[24], 2);
    for line in ["row - -> -", "row aaaaaa -> 0302aa", "row 0000 -> ffff"] {
        assert!(has(&cases, line), "{line}");
    }
}
