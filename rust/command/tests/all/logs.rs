//! Logs that are given to `run --calls`: their lines, other answers, names, damage.

use crate::common::report::{holds, reads_back};
use crate::common::running::{read_log, Answer, Call};
use crate::common::sheets::{full_core, strokes_of, two_cores};
use crate::common::{Folder, Ran, Rng};

#[test]
fn lines_that_are_no_calls() {
    let folder = Folder::new();
    folder.write("a.tsh", full_core().by_number());
    let text = "# a comment\n\n  \t\nhomvaits log 1\r\ncore 0\ntick\n";
    folder.write("calls", text);
    let ran = folder.run(&["run", "a.tsh", "--calls", "calls"]);
    assert!(ran.status != 1, "{ran}");
    for text in ["core 0\n", "homvaits log 1\ncore 0\n"] {
        folder.write("calls", text);
        let ran = folder.run(&["run", "a.tsh", "--calls", "calls"]).ends(0);
        let ran = ran.prints("0 jobs in 0 ticks");
        assert!(read_log(&ran.out).iter().all(|log| log.calls.is_empty()));
    }
    // a file without any calls is likely the wrong one
    for text in ["", "\n", "# nothing\n", "homvaits log 1\n"] {
        folder.write("calls", text);
        let ran = folder.run(&["run", "a.tsh", "--calls", "calls"]).ends(2);
        ran.prints_nothing().tells("calls");
    }
    folder.write("empty.tsh", b"TSH\x01\x00\x00\x00\x00");
    let ran = folder.run(&["run", "empty.tsh"]).ends(0);
    assert!(read_log(&ran.out).is_empty());
}

/// Lines that are no lines of a log, each with a word that must be told.
const WRONG: [(&str, &str); 55] = [
    ("relase 0", "relase"),
    ("Release 0", "Release"),
    ("release", "release"),
    ("release x", "x"),
    ("release -1", "-1"),
    ("release +1", "+1"),
    ("release 256", "256"),
    ("release 99999999999999999999999", "99999999999999999999999"),
    ("release 1.5", "1.5"),
    ("release 0 yes", ""),
    ("release 0 accepted accepted", ""),
    ("release 0 refused", ""),
    ("release 0 refused 18", ""),
    ("release 0 refused 18 place", ""),
    ("release 0 refused 18 place x", ""),
    ("release 0 refused 256 place 0", ""),
    ("release 0 refused 18 place 65536", "65536"),
    ("release 0 refused 18 at 0", ""),
    ("release 0 idle", ""),
    ("release 0 0", ""),
    ("finish", "finish"),
    ("finish 0x1", "0x1"),
    ("finish 0 Accepted", ""),
    ("tick 64", "64"),
    ("tick 256", "256"),
    ("tick -1", ""),
    ("tick Idle", ""),
    ("tick 0 0", ""),
    ("tick accepted", ""),
    ("ticks", "ticks"),
    ("ticks 0", "0"),
    ("ticks -5", "-5"),
    ("ticks five", "five"),
    ("ticks 99999999999999999999999", "99999999999999999999999"),
    ("ticks 5 idle", "ticks"),
    ("ticks 5 0", "ticks"),
    ("core", "core"),
    ("core x", "x"),
    ("core 8", "8"),
    ("core 256", "256"),
    ("core 0 0", "core"),
    ("bench", "bench"),
    ("bench 0", "bench"),
    ("task", "task"),
    ("task 0", "task"),
    ("task 0 period 5 budget 1", "task"),
    ("task 0 period 6 budget 1 within 4", "task 0"),
    ("task 0 period 5 budget 1 within 5", "task 0"),
    ("task 7 period 5 budget 1 within 4", "task 7"),
    ("task 0 period 5 budget 1 within 4 stroke", "task"),
    ("task 0 period 5 budget 1 within 4 stroke 0", "0"),
    ("task 0 period 5 budget 1 within 4 stroke 2", "2"),
    ("task 1 period 9 budget 7 within 9 stroke x", "x"),
    ("task 1 period 9 budget 7 within 9 stroke 4", "task 1"),
    ("homvaits log 2", "version"),
];

#[test]
fn bad_lines() {
    let folder = Folder::new();
    folder.write("a.tsh", full_core().by_number());
    for (line, word) in WRONG {
        for (front, at) in [("", 1), ("homvaits log 1\n# c\n\ncore 0\n", 5)] {
            folder.write("calls", format!("{front}{line}\ntick\n"));
            for words in [
                &["run", "a.tsh", "--calls", "calls"][..],
                &["run", "a.tsh", "--calls", "calls", "-o", "new.log"],
                &["draw", "a.tsh", "--calls", "calls"],
            ] {
                let ran = folder.run(words).ends(2).prints_nothing();
                let ran = ran.tells("calls").tells(&format!("line {at}")).tells(word);
                assert_eq!(ran.err.lines().count(), 1, "one sentence: {ran}");
                assert!(!denied(line, &ran), "it does begin a line: {ran}");
            }
        }
    }
    assert_eq!(folder.names(), ["a.tsh", "calls"]);
}

/// Whether a word that begins lines is said to begin none.
fn denied(line: &str, ran: &Ran) -> bool {
    let known = [
        "core", "bench", "task", "release", "finish", "tick", "ticks",
    ];
    let word = line.split(' ').next().unwrap_or_default();
    known.contains(&word) && ran.err.contains(&format!("`{word}` begins no line"))
}

#[test]
fn lines_that_are_no_text() {
    let folder = Folder::new();
    folder.write("a.tsh", full_core().by_number());
    let escape = b"tick \x1b[31m";
    for line in [
        &b"tick\xff"[..],
        b"\xff",
        b"tick\0",
        escape,
        b"# \xff\n\xffx",
    ] {
        folder.write("calls", line);
        let ran = folder.run(&["run", "a.tsh", "--calls", "calls"]).ends(2);
        assert!(!ran.err.contains('\u{1b}'), "{ran}");
        ran.tells("calls").tells("line ");
    }
    let long = format!("tick\nrelease {}\n", "9".repeat(100_000));
    let words = ["run", "a.tsh", "--calls", "-"];
    let ran = folder.run_on(&words, long).ends(2);
    assert!(ran.err.len() < 1000, "{} bytes told", ran.err.len());
    ran.tells("standard input").tells("line 2");
}

#[test]
fn a_core_stands_once() {
    let folder = Folder::new();
    folder.write("a.tsh", two_cores().by_number());
    let run = |calls: &str| folder.run_on(&["run", "a.tsh", "--calls", "-"], calls);
    run("core 0\ntick\ncore 1\ntick\ncore 0\ntick\n")
        .ends(2)
        .tells("line 5");
    run("core 0\ncore 0\n").ends(2).tells("line 2");
    run("tick\n").ends(2).tells("line 1").tells("core");
    run("tick\ncore 0\ntick\n").ends(2);
    run("core 2\ntick\n")
        .ends(2)
        .tells("line 1")
        .tells("core 2");
    run("core 1\ntick\ncore 0\ntick\n").ends(0);
}

#[test]
fn calls_of_other_cores() {
    let folder = Folder::new();
    folder.write("a.tsh", two_cores().by_number());
    folder.write("calls", "core 1\nrelease 0\nticks 3\n");
    let words = ["run", "a.tsh", "--calls", "calls", "--core", "0"];
    let ran = folder.run(&words);
    assert!(ran.status == 2, "no calls of core 0: {ran}");
    folder.write("calls", "core 1\nrelease 0\nticks 3\ncore 0\ntick\n");
    let ran = folder.run(&words).ends(0);
    let logs = holds(&ran);
    assert_eq!(logs.len(), 1);
    assert_eq!(logs[0].calls, [(Call::Tick, Answer::Idle)]);
}

#[test]
fn another_answer() {
    let folder = Folder::new();
    folder.write("a.tsh", full_core().by_number());
    let log = folder.run(&["run", "a.tsh", "--random", "5"]).ends(0).out;
    let lines: Vec<&str> = log.lines().collect();
    let mut seen = 0;
    for (at, line) in lines.iter().enumerate() {
        let others: &[&str] = match line.split(' ').collect::<Vec<_>>().as_slice() {
            ["tick", "idle"] => &["tick 0", "tick 1", "tick 63"],
            ["tick", "0"] => &["tick 1", "tick idle"],
            ["release" | "finish", _, "accepted"] => &["refused 18 place 0", "refused 99 place 9"],
            ["release" | "finish", _, "refused", ..] => &["accepted", "refused 17 place 1"],
            _ => &[],
        };
        for other in others {
            let call = line.split(' ').take(2).collect::<Vec<_>>().join(" ");
            let changed = match other.starts_with("tick") {
                true => (*other).to_owned(),
                false => format!("{call} {other}"),
            };
            let mut text = lines.clone();
            text[at] = &changed;
            folder.write("log", text.join("\n") + "\n");
            let ran = folder.run(&["run", "a.tsh", "--calls", "log"]).ends(1);
            assert_eq!(ran.out, log, "the answers are the library's");
            let ran = ran.tells(&format!("log, line {}:", at + 1));
            assert_eq!(ran.err.lines().count(), 1, "{ran}");
            assert_eq!(ran.err.matches("homvaits").count(), 1, "{ran}");
            let (said, given) = (answer_of(&changed), answer_of(line));
            assert!(ran.err.contains(said) && ran.err.contains(given), "{ran}");
            seen += 1;
        }
    }
    assert!(seen > 50, "{seen}");
    let wrong = "tick 1\ntick 1\ntick 1\n";
    let ran = folder
        .run_on(&["run", "a.tsh", "--calls", "-"], wrong)
        .ends(1);
    ran.tells("line 1").tells("line 2").tells("line 3");
}

fn answer_of(line: &str) -> &str {
    let front = if line.starts_with("tick") { 1 } else { 2 };
    line.splitn(front + 1, ' ').nth(front).unwrap_or_default()
}

#[test]
fn thousands_of_other_answers() {
    let folder = Folder::new();
    folder.write("a.tsh", full_core().by_number());
    let calls = "tick 1\n".repeat(20_000);
    let ran = folder
        .run_on(&["run", "a.tsh", "--calls", "-"], calls)
        .ends(1);
    ran.tells("line 1:");
}

#[test]
fn names() {
    let folder = Folder::new();
    folder.write("a.jobs", "5 1 key\n9 7 main receiver # x\n");
    folder.write("a.tsh", full_core().by_core());
    for words in [
        &["run", "a.tsh", "--names", "a.jobs"][..],
        &["run", "--bench", "a.jobs"],
    ] {
        let ran = folder.run(words).ends(0);
        let tasks = &holds(&ran)[0].tasks;
        let names: Vec<&str> = tasks
            .iter()
            .filter_map(|task| task.name.as_deref())
            .collect();
        assert_eq!(names, ["key", "main receiver"]);
        reads_back(&folder, words, &ran);
    }
    folder.write("bare.jobs", "5 1\n9 7\n");
    let bare = folder
        .run(&["run", "a.tsh", "--names", "bare.jobs"])
        .ends(0);
    assert_eq!(bare.out, folder.run(&["run", "a.tsh"]).ends(0).out);
}

#[test]
fn names_of_another_list() {
    let folder = Folder::new();
    folder.write("a.tsh", full_core().by_core());
    for (text, word) in [
        ("5 1 key\n", ""),
        ("5 1 key\n9 7 r\n9 7 more\n", ""),
        ("5 1 key\n9 6 r\n", "line 2"),
        ("5 2 key\n9 7 r\n", "line 1"),
        ("5 1 key\n9 7 r 7\n6\n", "line 3"),
        ("", ""),
    ] {
        folder.write("other.jobs", text);
        let words = ["run", "a.tsh", "--names", "other.jobs"];
        let ran = folder.run(&words).prints_nothing();
        assert_ne!(ran.status, 0);
        ran.tells("other.jobs").tells(word);
    }
    let ran = folder.run(&["run", "a.tsh", "--names", "none"]).ends(2);
    ran.tells("none");
}

#[test]
fn names_are_read_back() {
    let folder = Folder::new();
    folder.write("a.jobs", "5 1 key\n9 7 main receiver\n");
    folder.write("a.tsh", full_core().by_number());
    let ran = folder.run(&["run", "a.tsh", "--names", "a.jobs"]).ends(0);
    folder.write("a.log", &ran.out);
    let again = folder.run(&["run", "a.tsh", "--calls", "a.log"]).ends(0);
    assert_eq!(again.out, ran.out, "the log has the names");
}

/// A log of a sheet with strokes is no log of the sheet without them, nor the other way round.
#[test]
fn logs_of_other_strokes() {
    let folder = Folder::new();
    folder.write("1.tsh", full_core().by_number());
    folder.write("4.tsh", strokes_of(4).in_strokes());
    folder.write("3.tsh", strokes_of(3).in_strokes());
    let names = ["1.tsh", "3.tsh", "4.tsh"];
    for of in names {
        let log = folder.run(&["run", of]).ends(0).out;
        for name in names {
            let ran = folder.run_on(&["run", name, "--calls", "-"], &log);
            match name == of {
                true => assert_eq!(ran.ends(0).out, log),
                false => drop(ran.ends(2).tells("task 1").tells("another sheet")),
            }
        }
    }
    // names behind strokes
    folder.write("a.jobs", "5 1 key\n9 7 stroke 2\n");
    let words = ["run", "4.tsh", "--names", "a.jobs"];
    let ran = folder.run(&words).ends(0);
    let ran = ran.prints("within 9 stroke 4 name stroke 2\n");
    let again = folder.run_on(&["run", "4.tsh", "--calls", "-"], &ran.out);
    assert_eq!(again.ends(0).out, ran.out);
}

#[test]
fn damaged_logs_never_break_it() {
    let folder = Folder::new();
    folder.write("a.tsh", two_cores().by_number());
    let log = folder.run(&["run", "a.tsh", "--random", "1"]).ends(0).out;
    let digits = log
        .bytes()
        .enumerate()
        .filter(|(_, byte)| byte.is_ascii_digit());
    let digits: Vec<usize> = digits.map(|(at, _)| at).collect();
    let mut rng = Rng(77);
    let mut seen = [0; 3];
    for round in 0..900 {
        let mut bytes = log.clone().into_bytes();
        match round % 3 {
            // another call or another answer
            0 => bytes[rng.pick(&digits)] = rng.pick(b"01234"),
            _ => rng.damage(&mut bytes),
        }
        let ran = folder.run_on(&["run", "a.tsh", "--calls", "-"], &bytes);
        seen[ran.status as usize] += 1;
        let told = ran.err.contains("line ") || ran.err.contains("no calls");
        assert!(ran.status != 2 || told, "{ran}");
        if ran.status < 2 {
            holds(&Ran { status: 0, ..ran });
        }
        folder.run_on(&["draw", "-"], &bytes);
    }
    assert!(seen.iter().all(|&count| count > 20), "{seen:?}");
}
