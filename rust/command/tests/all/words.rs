//! Words after the command: help, options, files, and what is wrong with them.

use crate::common::sheets::full_core;
use crate::common::{Folder, Rng};
use std::ffi::{OsStr, OsString};
use std::ops::RangeInclusive;
use std::os::unix::ffi::OsStringExt;

const COMMANDS: [&str; 8] = [
    "check", "list", "explain", "plan", "margins", "move", "run", "draw",
];

/// A good sheet, a refused one, a job list, one that does not fit, calls, a folder, and a file that begins with a minus.
fn folder() -> Folder {
    let folder = Folder::new();
    let sheet = full_core().by_number();
    folder.write("good.tsh", &sheet);
    folder.write("bad.tsh", &sheet[1..]);
    folder.write("some.jobs", "5 1 key\n9 7 receiver\n");
    folder.write("late.jobs", "5 3\n7 4\n");
    folder.write("calls", "release 0\nticks 3\n");
    folder.write("sub/one.tsh", &sheet);
    folder.write("-dash", &sheet);
    folder.write("--help", &sheet);
    folder
}

/// A file that the command takes.
fn file_of(command: &str) -> &'static str {
    match command {
        "plan" | "margins" => "some.jobs",
        _ => "good.tsh",
    }
}

/// The options in a help text, which stand at the front of indented lines, and whether a value follows: `  --core K   runs core K`.
fn options_of(help: &str) -> Vec<(String, bool)> {
    let rows = help.lines().filter(|line| line.starts_with("  -"));
    rows.map(|row| {
        let front = row.trim_start().split("  ").next().unwrap_or_default();
        let (name, value) = front.split_once(' ').unwrap_or((front, ""));
        (name.to_owned(), !value.is_empty())
    })
    .collect()
}

#[test]
fn every_command_has_a_help() {
    let folder = folder();
    let general = folder.run(&["help"]).ends(0).out;
    for command in COMMANDS {
        assert!(general.contains(&format!("\n  {command} ")), "{command}");
        let help = folder.run(&[command, "--help"]).ends(0).out;
        let usage = format!("usage: homvaits {command} ");
        assert!(help.starts_with(&usage), "{help}");
        assert!(help.contains("Status"), "the statuses of {command}");
        assert_eq!(folder.run(&[command, "-h"]).ends(0).out, help);
        assert_eq!(folder.run(&["help", command]).ends(0).out, help);
        let among = [command, "--no-such", "x", "--help", "y"];
        assert_eq!(folder.run(&among).ends(0).out, help);
        assert!(help.lines().all(|line| line.len() <= 80), "{command}");
    }
    for word in ["--help", "-h"] {
        assert_eq!(folder.run(&[word]).ends(0).out, general);
    }
    for word in ["--version", "-V"] {
        folder.run(&[word]).ends(0).prints("homvaits ");
    }
}

#[test]
fn nothing_at_all_is_wrong_use() {
    let folder = folder();
    let none: [&str; 0] = [];
    let ran = folder.run(&none).ends(2).prints_nothing();
    ran.tells("usage: homvaits COMMAND");
    folder.run(&[""]).ends(2);
}

#[test]
fn every_option_of_the_help_is_known_and_no_other() {
    let folder = folder();
    for command in COMMANDS {
        let help = folder.run(&[command, "--help"]).out;
        let mut options = options_of(&help);
        if command == "draw" {
            options.extend(options_of(&folder.run(&["run", "--help"]).out));
            options.retain(|(name, _)| name != "-o");
            options.push(("-o".to_owned(), true));
        }
        for (name, valued) in &options {
            let ran = folder.run(&[command, file_of(command), name.as_str(), "1"]);
            assert!(!ran.err.contains("no option"), "{ran}");
            let bare = folder.run(&[command, file_of(command), name.as_str()]);
            if *valued {
                bare.ends(2).tells(name).tells("value").prints_nothing();
            }
            if name.starts_with("--") {
                let joined = folder.run(&[command, file_of(command), &format!("{name}=1")]);
                assert!(!joined.err.contains("no option"), "{joined}");
                assert!(*valued || joined.status == 2, "a value of a flag: {joined}");
            }
        }
        for word in [
            "--no-such",
            "--no-such=5",
            "-x",
            "---",
            "--Quiet",
            "--help=1",
        ] {
            let ran = folder.run(&[command, file_of(command), word]).ends(2);
            ran.tells(word).tells("there is no option").prints_nothing();
        }
    }
}

#[test]
fn short_options() {
    let folder = folder();
    folder.run(&["move", "good.tsh", "-onew.tsh"]).ends(0);
    assert!(folder.path("new.tsh").exists());
    let before = folder.names();
    folder.run(&["move", "good.tsh", "-o=new.tsh"]);
    assert_eq!(folder.names(), before, "no file has a name with =");
    folder
        .run(&["list", "good.tsh", "-oo"])
        .ends(2)
        .tells("there is no option");
}

#[test]
fn an_option_is_given_once() {
    let folder = folder();
    for command in COMMANDS {
        for (name, valued) in options_of(&folder.run(&[command, "--help"]).out) {
            let once: &[&str] = if valued { &[&name, "1"] } else { &[&name] };
            let words = [&[command, file_of(command)], once, once].concat();
            folder.run(&words).ends(2).tells("twice").tells(&name);
        }
    }
}

#[test]
fn unknown_commands() {
    let folder = folder();
    for word in [
        "chek", "Check", "check ", "-x", "--", "-", "help.", "\n", "🦀",
    ] {
        let ran = folder.run(&[word, "good.tsh"]).ends(2).prints_nothing();
        ran.tells("there is no command").tells("explain");
    }
    folder.run(&["help", "chek"]).ends(2).tells("chek");
}

#[test]
fn missing_words() {
    let folder = folder();
    for command in COMMANDS {
        folder.run(&[command]).ends(2).prints_nothing();
        folder.run(&[command, "--"]).ends(2).prints_nothing();
    }
}

#[test]
fn surplus_words() {
    let folder = folder();
    for command in COMMANDS.into_iter().filter(|&command| command != "check") {
        let file = file_of(command);
        let ran = folder.run(&[command, file, "surplus"]).ends(2);
        ran.tells("surplus").prints_nothing();
        let ran = folder.run(&[command, file, file]).ends(2);
        ran.tells(file).prints_nothing();
        folder
            .run(&[command, "--", file, "--help"])
            .ends(2)
            .tells("--help");
    }
    folder
        .run(&["help", "list", "surplus"])
        .ends(2)
        .tells("surplus");
}

#[test]
fn after_two_minuses_every_word_is_a_file() {
    let folder = folder();
    let listing = full_core().listing(1);
    assert_eq!(folder.run(&["list", "--", "-dash"]).ends(0).out, listing);
    assert_eq!(folder.run(&["list", "--", "--help"]).ends(0).out, listing);
    assert_eq!(folder.run(&["list", "./-dash"]).ends(0).out, listing);
    folder.run(&["check", "--", "-dash", "--help"]).ends(0);
    folder
        .run(&["list", "--", "--"])
        .ends(2)
        .tells("No such file");
    let sheet = full_core().by_number();
    assert_eq!(folder.run_on(&["list", "-"], &sheet).ends(0).out, listing);
    let ran = folder.run_on(&["list", "--", "-"], &sheet);
    assert_eq!(
        ran.ends(0).out,
        listing,
        "a minus is standard input there too"
    );
}

#[test]
fn options_stand_anywhere() {
    let folder = folder();
    let first = folder.run(&["run", "--ticks", "5", "good.tsh"]).ends(0).out;
    for words in [
        &["run", "good.tsh", "--ticks", "5"][..],
        &["run", "good.tsh", "--ticks=5"],
        &["run", "--ticks=5", "--", "good.tsh"],
        &["run", "--ticks", "005", "good.tsh"],
        &["run", "--earliest", "good.tsh", "--ticks=5"],
    ] {
        assert_eq!(folder.run(words).ends(0).out, first);
    }
}

/// Commands, their options with a number, numbers that are out of range, and the range.
const NUMBERS: [(&str, &str, &[&str], RangeInclusive<u64>); 7] = [
    ("plan", "--cores", &["9", "256", "264"], 0..=8),
    ("plan", "--start", &["2", "64", "65536", "65537"], 0..=1),
    ("run", "--core", &["1", "8", "256"], 0..=0),
    (
        "run",
        "--ticks",
        &["0", "100001", "4294967297"],
        1..=100_000,
    ),
    (
        "draw",
        "--ticks",
        &["0", "100001", "4294967297"],
        1..=20_000,
    ),
    ("draw", "--core", &["1", "8", "256"], 0..=0),
    ("run", "--random", &["18446744073709551616"], 0..=u64::MAX),
];

/// What is no number anywhere.
const NO_NUMBERS: &str = "-1|+1|1.5|1e1|0x1|x|1 | |１|99999999999999999999999|";

#[test]
fn numbers_out_of_range() {
    let folder = folder();
    for (command, option, wrong, _) in NUMBERS {
        for number in NO_NUMBERS.split('|').chain(wrong.iter().copied()) {
            for words in [
                vec![command, file_of(command), option, number],
                vec![command, file_of(command), &format!("{option}={number}")],
            ] {
                let ran = folder.run(&words).ends(2).prints_nothing();
                let named = ran.err.contains(option) || ran.err.contains(&format!(" {number}:"));
                assert!(named, "{ran}");
            }
        }
    }
    for width in ["39", "1001", "0", "x", "-1", ""] {
        let ran = folder.run(&["draw", "good.tsh", "--text", "--width", width]);
        ran.ends(2).tells("--width").prints_nothing();
    }
}

#[test]
fn numbers_at_the_ends_of_their_ranges() {
    let folder = folder();
    for (command, option, _, range) in NUMBERS {
        for number in [range.start(), range.end()] {
            let words = [command, file_of(command), option, &number.to_string()];
            let ran = folder.run(&words);
            assert_ne!(ran.status, 2, "{ran}");
        }
    }
    for width in ["40", "1000"] {
        let words = ["draw", "good.tsh", "--text", "--width", width];
        folder.run(&words).ends(0);
    }
}

#[test]
fn options_that_do_not_go_together() {
    let folder = folder();
    for words in [
        &["plan", "some.jobs", "--start", "0", "--all-starts"][..],
        &["run", "good.tsh", "--earliest", "--random", "1"],
        &["run", "good.tsh", "--earliest", "--calls", "calls"],
        &["run", "good.tsh", "--random", "1", "--calls", "calls"],
        &["run", "good.tsh", "--ticks", "5", "--calls", "calls"],
        &["run", "some.jobs", "--bench", "--core", "0"],
        &["draw", "good.tsh", "--width", "50"],
        &["draw", "good.tsh", "--earliest", "--random", "1"],
    ] {
        let ran = folder.run(words).ends(2).prints_nothing();
        let told = words.iter().filter(|word| word.starts_with("--"));
        let told = told.filter(|word| ran.err.contains(**word)).count();
        assert!(told >= 1, "the options are named: {ran}");
    }
}

#[test]
fn odd_words_stay_on_their_line() {
    let folder = folder();
    let long = "x".repeat(100_000);
    for word in [
        "",
        " ",
        "a\nb",
        "\u{1b}[31mred",
        "a\u{7}b",
        "\u{202e}abc",
        "-",
        long.as_str(),
    ] {
        for command in COMMANDS {
            let ran = folder.run(&[command, "--", word]);
            let lines = ran.all();
            assert!(
                !lines.contains('\u{1b}') && !lines.contains('\u{7}'),
                "{ran}"
            );
            assert!(!lines.contains("a\nb"), "{ran}");
            folder.run(&[command, &format!("--{word}")]);
        }
        let ran = folder.run(&[word]).ends(2);
        assert!(!ran.err.contains("a\nb"), "{ran}");
    }
}

#[test]
fn words_that_are_not_utf_8() {
    let folder = folder();
    let raw = OsString::from_vec(b"a\xffb".to_vec());
    let option = OsString::from_vec(b"--a\xff".to_vec());
    let joined = OsString::from_vec(b"--ticks=\xff".to_vec());
    folder.run(&[&raw]).ends(2);
    for command in COMMANDS {
        let command = OsStr::new(command);
        folder.run(&[command, &raw]).ends(2);
        folder.run(&[command, &option]).ends(2);
        folder.run(&[command, &joined]).ends(2);
        folder.run(&[OsStr::new("help"), &raw]).ends(2);
        let file = OsStr::new(file_of(command.to_str().expect("text")));
        let value = [command, file, OsStr::new("--ticks"), &raw];
        folder.run(&value).ends(2);
    }
}

#[test]
fn any_words_at_all() {
    let folder = folder();
    let mut rng = Rng(7);
    let words = "good.tsh bad.tsh some.jobs late.jobs calls sub none - -- . --quiet --json --ending .tsh -o out \
        out/x --cores --start --all-starts --core --ticks --earliest --random --calls --names --bench --text \
        --width 0 1 2 8 40 64 -1 --ticks=20 --core=0 --random=5 --cores=1 --width=60 --names=some.jobs \
        --calls=calls -x --no /dev/null";
    let mut words: Vec<&str> = words.split_whitespace().collect();
    words.push("");
    let mut seen = [0; 3];
    for _ in 0..2500 {
        let any = rng.pick(&words);
        let file = rng.pick(&["good.tsh", "some.jobs", "calls", any]);
        let mut line = vec![rng.pick(&COMMANDS), file];
        line.extend((0..rng.range(0, 4)).map(|_| rng.pick(&words)));
        let ran = folder.run_on(&line, full_core().by_number());
        seen[ran.status as usize] += 1;
    }
    assert!(seen.iter().all(|&count| count > 20), "{seen:?}");
}
