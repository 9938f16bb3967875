//! The lines of README.md from planning to a picture and those on strokes, what it says that they print, and the pictures that it shows.

use crate::common::sheets::strokes_of;
use crate::common::svg::{read, shown};
use crate::common::{example, stored, Folder};
use std::path::{Path, PathBuf};

fn root(name: &str) -> PathBuf {
    let root = Path::new(env!("CARGO_MANIFEST_DIR")).join("../..");
    root.join(name)
}

/// The part of README.md between two texts.
fn between(readme: &str, front: &str, back: &str) -> String {
    let rest = readme.split_once(front).expect(front).1;
    rest.split_once(back).expect(back).0.to_owned()
}

#[test]
fn the_strokes() {
    let folder = Folder::new();
    let readme = std::fs::read_to_string(root("README.md")).expect("README.md");
    let bytes = between(&readme, "\n    printf '", "' > strokes.tsh\n");
    folder
        .shell(&format!("printf '{bytes}' > strokes.tsh"))
        .ends(0);
    assert_eq!(folder.read("strokes.tsh"), strokes_of(4).in_strokes());
    let listing = between(&readme, "\nThe first prints\n\n```\n", "```");
    let ran = folder.run(&["list", "strokes.tsh"]).ends(0);
    assert_eq!(ran.out, listing.replace("TSH 1", "TSH 3"));
    let calls = between(&readme, "CALLS of six lines, `", "`, `homvaits draw");
    folder.write("CALLS", calls.replace("`, `", "\n") + "\n");
    assert_eq!(
        folder
            .read("CALLS")
            .iter()
            .filter(|&&byte| byte == b'\n')
            .count(),
        6
    );
    let words = ["draw", "strokes.tsh", "--calls", "CALLS", "--text"];
    let picture = between(&readme, "q is the stroke length)\n\n```\n", "```");
    folder.run(&words).ends(0).prints(&picture);
    folder.write("longer.tsh", strokes_of(5).in_strokes());
    let ran = folder.run(&["list", "longer.tsh"]).ends(1);
    assert!(readme.contains(&format!("`{}`", ran.out.trim_end())));
}

#[test]
fn from_planning_to_a_picture() {
    let folder = Folder::new();
    let readme = std::fs::read_to_string(root("README.md")).expect("README.md");
    let jobs = std::fs::read(example("named/radio.jobs")).expect("the example");
    folder.write("examples/named/radio.jobs", jobs);
    let lines = readme
        .lines()
        .filter_map(|line| line.strip_prefix("    homvaits "));
    let lines: Vec<Vec<&str>> = lines
        .map(|line| line.split_whitespace().collect())
        .collect();
    let commands: Vec<&str> = lines.iter().map(|words| words[0]).collect();
    assert_eq!(commands, ["plan", "check", "run", "draw"]);
    for words in &lines {
        let ran = folder.run(words).ends(0);
        let block = readme.split("\nThe third prints\n\n```\n").nth(1);
        let block = block.and_then(|rest| rest.split("```").next());
        assert!(
            words[0] != "run" || Some(ran.out.as_str()) == block,
            "{ran}"
        );
    }
    let picture = folder.read("radio.svg");
    let text = String::from_utf8(picture.clone()).expect("text");
    assert!(!shown(&read(&text)).ticks.is_empty());
    stored(&root("docs/pictures/radio.svg"), &picture);
}
