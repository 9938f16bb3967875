//! `draw`: stored pictures, and every tick and mark of a log in its row and place.

use crate::common::drawn::{draws, expected, letters};
use crate::common::running::{judge, read_log, CoreLog};
use crate::common::sheets::{full_core, strokes_of, two_cores, Sheet};
use crate::common::svg::{read, shown};
use crate::common::{example, finish, stored, text_of, Folder, Rng};
use std::path::Path;

/// Runs, draws and writes with letters with the same words, and holds the pictures against the log.
fn pictured(folder: &Folder, words: &[&str]) -> Vec<CoreLog> {
    let run = folder.run(&[&["run"], words].concat());
    let logs = read_log(&run.out);
    let picture = folder.run(&[&["draw"], words].concat()).ends(run.status);
    draws(&picture, &logs);
    let text = folder
        .run(&[&["draw", "--text"], words].concat())
        .ends(run.status);
    letters(&text, &logs, 100);
    // the log by itself gives the same picture
    folder.write("pictured.log", &run.out);
    let again = folder.run(&["draw", "pictured.log"]).ends(run.status);
    assert!(again.out == picture.out, "of the log: {}", picture.case);
    let again = folder
        .run(&["draw", "pictured.log", "--text"])
        .ends(run.status);
    assert_eq!(again.out, text.out);
    logs
}

#[test]
fn every_tick_of_the_examples() {
    let folder = Folder::new();
    for name in ["full-core", "ten-tasks", "sixty-four"] {
        let jobs = example(&format!("{name}.jobs"));
        let jobs = jobs.to_str().expect("text");
        folder.run(&["plan", jobs, "-o", "a.tsh"]).ends(0);
        for how in [
            &[][..],
            &["--random", "1"],
            &["--random", "2", "--ticks", "777"],
        ] {
            pictured(&folder, &[&["a.tsh"], how].concat());
        }
    }
}

#[test]
fn every_tick_of_many_runs() {
    let folder = Folder::new();
    let mut rng = Rng(6);
    let mut seen = [0; 2];
    for round in 0..40 {
        let jobs = rng.jobs(10);
        folder.write("a.jobs", text_of(&jobs));
        let planned = folder.run(&["plan", "a.jobs", "-o", "a.tsh"]).status;
        let (seed, ticks) = (round.to_string(), rng.range(1, 600).to_string());
        if planned == 0 {
            pictured(&folder, &["a.tsh", "--random", &seed, "--ticks", &ticks]);
            let made = Sheet::read(&folder.read("a.tsh"));
            folder.write("b.tsh", rng.stroked(&made).in_strokes());
            pictured(&folder, &["b.tsh", "--random", &seed, "--ticks", &ticks]);
        }
        let logs = pictured(&folder, &["a.jobs", "--bench", "--ticks", &ticks]);
        let late: u64 = judge(&logs[0]).values().map(|tally| tally.late).sum();
        seen[usize::from(late > 0)] += 1;
        pictured(&folder, &["a.jobs", "--bench", "--random", &seed]);
    }
    assert!(seen.iter().all(|&count| count > 5), "{seen:?}");
}

#[test]
fn calls_by_hand() {
    let folder = Folder::new();
    folder.write("a.tsh", two_cores().by_core());
    let cases = [
        "core 0\n",
        "core 1\nrelease 0\n",
        "core 0\nrelease 1\nrelease 1\nfinish 1\nfinish 1\nrelease 1\n",
        "core 0\nrelease 9\nfinish 255\nrelease 63\ntick\nrelease 0\n",
        "core 1\nticks 30\ncore 0\nrelease 3\nticks 2\nfinish 3\nticks 400\nrelease 3\nrelease 3\n",
        "core 0\nrelease 4\nrelease 1\nrelease 3\nticks 3\nfinish 4\nticks 300\n",
    ];
    for calls in cases {
        folder.write("calls", calls);
        pictured(&folder, &["a.tsh", "--calls", "calls"]);
    }
}

#[test]
fn a_long_picture() {
    let folder = Folder::new();
    folder.write("a.tsh", full_core().by_number());
    let words = ["a.tsh", "--ticks", "20000"];
    pictured(&folder, &words);
    let ran = folder.run(&["draw", "a.tsh", "--ticks", "20001"]).ends(2);
    ran.prints_nothing().tells("20000");
    folder
        .run(&["run", "a.tsh", "--ticks", "20001", "-o", "long.log"])
        .ends(0);
    let ran = folder.run(&["draw", "long.log"]).ends(2).prints_nothing();
    ran.tells("20000");
    folder.write("calls", "release 9\n".repeat(100_001));
    let ran = folder.run(&["draw", "a.tsh", "--calls", "calls"]).ends(2);
    ran.prints_nothing().tells("100000");
    folder.write("calls", "ticks 20001\n");
    folder
        .run(&["draw", "a.tsh", "--calls", "calls"])
        .ends(2)
        .tells("20000");
}

#[test]
fn widths() {
    let folder = Folder::new();
    folder.write("a.tsh", two_cores().by_number());
    let run = folder.run(&["run", "a.tsh", "--random", "9", "--ticks", "333"]);
    let logs = read_log(&run.out);
    let words = ["draw", "a.tsh", "--random", "9", "--ticks", "333", "--text"];
    for width in [40, 41, 60, 79, 80, 100, 250, 1000] {
        let ran = folder.run(&[&words[..], &["--width", &width.to_string()]].concat());
        letters(&ran.ends(0), &logs, width);
    }
    let plain = folder.run(&words).out;
    assert_eq!(
        folder.run(&[&words[..], &["--width", "100"]].concat()).out,
        plain
    );
    for (columns, width) in [
        ("60", 60),
        ("200", 200),
        ("5000", 1000),
        ("5", 100),
        ("x", 100),
        ("", 100),
    ] {
        let mut command = folder.command(&words);
        let ran = finish(command.env("COLUMNS", columns), b"").ends(0);
        letters(&ran, &logs, width.max(100));
    }
}

#[test]
fn names_stand_at_the_rows() {
    let folder = Folder::new();
    let names = ["a<b>&\"c'd", "Ünïcode & <more>"];
    folder.write("a.jobs", format!("5 1 {}\n9 7 {}\n", names[0], names[1]));
    folder.write("a.tsh", full_core().by_number());
    let logs = pictured(&folder, &["a.tsh", "--names", "a.jobs", "--random", "3"]);
    for (task, name) in logs[0].tasks.iter().zip(names) {
        assert_eq!(task.name.as_deref(), Some(name));
    }
    pictured(&folder, &["a.jobs", "--bench"]);
    // a log without names takes them from a list
    let bare = folder.run(&["run", "a.tsh", "--random", "3"]).out;
    folder.write("bare.log", &bare);
    let named = folder
        .run(&["draw", "bare.log", "--names", "a.jobs"])
        .ends(0);
    let words = ["draw", "a.tsh", "--names", "a.jobs", "--random", "3"];
    assert_eq!(named.out, folder.run(&words).out);
    // letters of two columns stand in the picture, whatever becomes of them on a terminal
    folder.write("wide.jobs", "5 1 名前\n9 7 b\n");
    let run = folder
        .run(&["run", "a.tsh", "--names", "wide.jobs"])
        .ends(0);
    let ran = folder
        .run(&["draw", "a.tsh", "--names", "wide.jobs"])
        .ends(0);
    draws(&ran, &read_log(&run.out));
    // a long one may be cut
    folder.write("long.jobs", format!("5 1 {}\n9 7 b\n", "n".repeat(40)));
    let words = ["draw", "a.tsh", "--names", "long.jobs"];
    let ran = folder.run(&words).ends(0).prints(">0 nnnnnnnnnn");
    shown(&read(&ran.out));
    for width in ["40", "100"] {
        let ran = folder.run(&[&words[..], &["--text", "--width", width]].concat());
        ran.ends(0).prints("0 nnnnnnn");
    }
}

#[test]
fn one_core_of_several() {
    let folder = Folder::new();
    folder.write("a.tsh", two_cores().by_number());
    let run = folder.run(&["run", "a.tsh", "--random", "1"]).ends(0);
    folder.write("run.log", &run.out);
    let logs = read_log(&run.out);
    for core in ["0", "1"] {
        let ran = folder.run(&["draw", "run.log", "--core", core]).ends(0);
        let number = core.parse::<usize>().expect("a number");
        draws(&ran, &logs[number..=number]);
        pictured(&folder, &["a.tsh", "--core", core]);
    }
    for (file, core) in [("a.tsh", "2"), ("run.log", "2"), ("run.log", "7")] {
        let ran = folder.run(&["draw", file, "--core", core]).prints_nothing();
        assert_ne!(ran.status, 0, "{ran}");
    }
}

#[test]
fn a_log_is_drawn_as_it_stands() {
    let folder = Folder::new();
    // no core would answer so
    let log = "homvaits log 1\ncore 3\ntask 5 period 4 budget 2 within 4\ntask 1 period 9 budget 3 within 8\n\
        release 1 accepted\ntick 1\ntick 5\ntick idle\nrelease 5 accepted\ntick 1\ntick 5\ntick 5\nticks_\n";
    let log = log.replace("ticks_\n", "tick idle\ntick idle\ntick idle\n");
    folder.write("a.log", &log);
    let ran = folder.run(&["draw", "a.log"]);
    let given = shown(&read(&ran.out)).ticks;
    let logs = read_log(&log);
    assert_eq!(given.get("run"), expected(&logs).ticks.get("run"), "{ran}");
    assert_eq!(
        given.get("idle"),
        expected(&logs).ticks.get("idle"),
        "{ran}"
    );
    assert_eq!(ran.status, 1, "task 1 is late: {ran}");
}

#[test]
fn logs_that_cannot_be_drawn() {
    let folder = Folder::new();
    for (text, word) in [
        ("homvaits log 1\ncore 0\ntask 0 period 5 budget 1 within 4\nrelease 0\n", "line 4"),
        ("homvaits log 1\ncore 0\ntask 0 period 5 budget 1 within 4\nticks 3\n", "line 4"),
        ("homvaits log 1\ncore 0\ntask 0 period 5 budget 1 within 4\ntick\n", "line 4"),
        ("homvaits log 1\ntick idle\n", "line 2"),
        ("homvaits log 2\n", "version"),
        ("homvaits log 1\ncore 0\ntask 0 period 0 budget 1 within 4\n", "line 3"),
        ("homvaits log 1\ncore 0\ntask 0 period 5 budget 0 within 4\n", "line 3"),
        ("homvaits log 1\ncore 0\ntask 64 period 5 budget 1 within 4\n", "line 3"),
        ("homvaits log 1\ncore 0\ntask 0 period 99999 budget 1 within 4\n", "line 3"),
        ("homvaits log 1\ncore 0\ntask 0 period 5 budget 1 within 4\ntask 0 period 5 budget 1 within 4\n", "line 4"),
        ("homvaits log 1\ncore 0\ntask 0 period 5 budget 1 within 4 name 7\n", "line 3"),
        ("homvaits log 1\ncore 0\ncore 0\n", "line 3"),
        ("homvaits log 1\ncore 0\ntick 0\nrelase 0 accepted\n", "line 4"),
    ] {
        folder.write("a.log", text);
        for words in [&["draw", "a.log"][..], &["draw", "a.log", "--text"]] {
            let ran = folder.run(words).ends(2).prints_nothing();
            ran.tells("a.log").tells(word);
        }
    }
}

#[test]
fn what_does_not_go_with_a_log() {
    let folder = Folder::new();
    folder.write("no.log", "core 0\ntick idle\n");
    let ran = folder.run(&["draw", "no.log"]).prints_nothing();
    assert_ne!(ran.status, 0);
    ran.tells("no.log").tells("sheet").tells("homvaits log 1");
    let log = "homvaits log 1\ncore 0\ntask 0 period 5 budget 1 within 4\ntick idle\n";
    folder.write("ok.log", log);
    for options in [
        &["--calls", "ok.log"][..],
        &["--random", "1"],
        &["--ticks", "5"],
        &["--earliest"],
    ] {
        let ran = folder.run(&[&["draw", "ok.log"], options].concat()).ends(2);
        ran.prints_nothing().tells(options[0]);
    }
    folder.run(&["draw", "ok.log"]).ends(0);
    folder.run(&["draw", "ok.log", "--bench"]).prints_nothing();
}

#[test]
fn nothing_to_draw() {
    let folder = Folder::new();
    folder.write("empty.tsh", b"TSH\x01\x00\x00\x00\x00");
    folder.write("empty.jobs", "");
    folder.write("empty.log", "homvaits log 1\n");
    for words in [
        &["empty.tsh"][..],
        &["empty.log"],
        &["empty.jobs", "--bench"],
    ] {
        let ran = folder.run(&[&["draw"], words].concat()).ends(0);
        read(&ran.out);
        folder.run(&[&["draw", "--text"], words].concat()).ends(0);
    }
}

/// The reader of pictures is no reader of good ones alone: what stands in a wrong place is found.
#[test]
fn a_wrong_picture_is_noticed() {
    let folder = Folder::new();
    folder.write("a.tsh", full_core().by_number());
    let log = read_log(&folder.run(&["run", "a.tsh"]).ends(0).out);
    let right = folder.run(&["draw", "a.tsh"]).ends(0);
    draws(&right, &log);
    let mut runs = right
        .out
        .lines()
        .filter(|line| line.contains("class=\"run\""));
    let run = runs.next().expect("a run");
    let wrong = [
        (run, format!("{run}\n{run}")),
        (run, String::new()),
        (run, run.replace(" x=\"", " x=\"1")),
        (run, run.replace(" y=\"", " y=\"1")),
        (run, run.replace("data-to=\"1\"", "data-to=\"2\"")),
        (run, run.replace("data-task=\"0\"", "data-task=\"1\"")),
        (run, run.replace("class=\"run\"", "class=\"pending\"")),
        (">0</text>", ">1</text>".to_owned()),
        ("class=\"release\"", "class=\"due\"".to_owned()),
    ];
    for (good, bad) in wrong {
        let out = right.out.replacen(good, &bad, 1);
        assert_ne!(out, right.out, "{good}");
        let noticed = std::panic::catch_unwind(|| shown(&read(&out)) != expected(&log));
        assert!(noticed.unwrap_or(true), "{bad}");
    }
}

#[test]
fn stored_pictures() {
    let folder = Folder::new();
    let pictures = Path::new(env!("CARGO_MANIFEST_DIR")).join("tests/pictures");
    folder.write("full.tsh", full_core().by_number());
    folder.write("full.jobs", "5 1 key\n9 7 receiver\n");
    folder.write("two.tsh", two_cores().by_core());
    folder.write("late.jobs", "5 2 first\n7 4 second\n34 1\n");
    folder.write("strokes.tsh", strokes_of(4).in_strokes());
    let calls = "release 1\ntick\nrelease 0\nticks 5\nrelease 0\nticks 4\nrelease 1\nticks 2\nfinish 1\nrelease 0\nticks 3\n";
    folder.write("stroke-calls", calls);
    let calls = "core 0\nrelease 3\nrelease 1\nrelease 4\nrelease 3\nticks 2\nfinish 1\nfinish 1\n\
        release 9\nticks 5\nrelease 1\nticks 4\ncore 1\nticks 2\nrelease 0\nticks 40\n";
    folder.write("calls", calls);
    let ten = example("ten-tasks.jobs");
    folder
        .run(&["plan", ten.to_str().expect("text"), "-o", "ten.tsh"])
        .ends(0);
    let cases: [(&str, &[&str], i32); 7] = [
        ("full-core", &["full.tsh", "--names", "full.jobs"], 0),
        ("random", &["two.tsh", "--random", "7"], 0),
        ("late", &["late.jobs", "--bench", "--ticks", "40"], 1),
        ("calls", &["two.tsh", "--calls", "calls"], 0),
        (
            "strokes",
            &[
                "strokes.tsh",
                "--names",
                "full.jobs",
                "--calls",
                "stroke-calls",
            ],
            0,
        ),
        ("bands", &["ten.tsh", "--core", "1", "--ticks", "400"], 0),
        (
            "ten-tasks",
            &["ten.tsh", "--random", "3", "--ticks", "60"],
            0,
        ),
    ];
    for (name, words, status) in cases {
        for (ending, options) in [
            ("svg", &["draw"][..]),
            ("txt", &["draw", "--text", "--width", "100"]),
        ] {
            let ran = folder.run(&[options, words].concat()).ends(status);
            stored(&pictures.join(format!("{name}.{ending}")), &ran.bytes);
        }
        pictured(&folder, words);
    }
}

#[test]
fn two_thousand_ticks() {
    let folder = Folder::new();
    let ten = example("ten-tasks.jobs");
    folder
        .run(&["plan", ten.to_str().expect("text"), "-o", "ten.tsh"])
        .ends(0);
    let words = ["ten.tsh", "--ticks", "2000"];
    let ran = folder.run(&[&["draw"], &words[..]].concat()).ends(0);
    let picture = Path::new(env!("CARGO_MANIFEST_DIR")).join("../../docs/pictures/ten-tasks.svg");
    stored(&picture, &ran.bytes);
    pictured(&folder, &words);
}
