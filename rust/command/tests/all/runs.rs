//! `run`: every log is held against a dispatcher and an on-time rule of our own, and read back.

use crate::common::report::{holds, reads_back, table};
use crate::common::running::{read_log, unbroken, Answer, Call, CoreLog};
use crate::common::sheets::{core, full_core, sheet, strokes_of, task, two_cores, Sheet};
use crate::common::{example, text_of, Folder, Ran, Rng};

/// Planned sheets and sheets made by hand, in one of the versions each.
fn many_sheets(folder: &Folder, seed: u64, count: usize) -> Vec<(Sheet, Vec<u8>)> {
    let mut rng = Rng(seed);
    let mut sheets = Vec::new();
    while sheets.len() < count {
        let made = if rng.range(0, 1) == 0 {
            let jobs = rng.jobs(20);
            let ran = folder.run_on(&["plan", "-", "-o", "-"], text_of(&jobs));
            if ran.status != 0 {
                continue;
            }
            Sheet::read(&ran.bytes)
        } else {
            rng.sheet()
        };
        let version = rng.range(1, 3) as u8;
        let fits = (0..made.cores.len() as u8).all(|core| made.fits(core));
        let made = match version {
            3 if fits => rng.stroked(&made),
            _ => made,
        };
        let bytes = made.write(version);
        if folder.run_on(&["list", "-"], &bytes).status == 0 {
            sheets.push((made, bytes));
        }
    }
    sheets
}

#[test]
fn random_runs_of_many_sheets() {
    let folder = Folder::new();
    let (mut finished, mut refused, mut idle, mut waited) = (0, [0; 24], 0, 0);
    for (seed, (made, bytes)) in many_sheets(&folder, 1, 80).into_iter().enumerate() {
        folder.write("a.tsh", bytes);
        let seed = (seed as u64)
            .wrapping_mul(0x1234_5678_9abc_def1)
            .to_string();
        let words = ["run", "a.tsh", "--random", &seed, "--ticks", "150"];
        let ran = folder.run(&words).ends(0);
        let cores = holds(&ran);
        assert_eq!(cores.len(), made.cores.len());
        for (number, log) in cores.iter().enumerate() {
            head_of(log, &made, number as u8);
            waited += unbroken(log);
            for (call, answer) in &log.calls {
                match (call, answer) {
                    (Call::Finish(_), Answer::Accepted) => finished += 1,
                    (_, Answer::Refused(word, _)) => refused[usize::from(*word)] += 1,
                    (_, Answer::Idle) => idle += 1,
                    _ => {}
                }
            }
        }
        reads_back(&folder, &["run", "a.tsh"], &ran);
        assert_eq!(folder.run(&words).out, ran.out, "the seed decides");
    }
    assert!(finished > 0 && idle > 0, "{finished} {idle}");
    assert!(
        waited > 100,
        "{waited} ticks of strokes while a task above waits"
    );
    assert!(
        [17, 18, 20].iter().all(|&word| refused[word] > 0),
        "{refused:?}"
    );
    assert_eq!((refused[19], refused[21]), (0, 0));
}

/// A log begins with the tasks of its core by priority.
fn head_of(log: &CoreLog, made: &Sheet, core: u8) {
    assert_eq!(log.core, Some(core));
    let order = made.order(core);
    assert_eq!(log.tasks.len(), order.len());
    for (task, number) in log.tasks.iter().zip(order) {
        let record = made.tasks[number];
        assert_eq!(usize::from(task.number), number);
        assert_eq!(task.period, u64::from(record.period));
        assert_eq!(task.budget, u64::from(record.budget));
        assert_eq!(task.within, made.within(number));
        assert_eq!(task.stroke, u64::from(record.stroke));
    }
}

#[test]
fn other_seeds_are_other_runs() {
    let folder = Folder::new();
    folder.write("a.tsh", two_cores().by_number());
    let run = |seed: &str| folder.run(&["run", "a.tsh", "--random", seed]).ends(0).out;
    let seeds = ["0", "1", "2", "3", "4294967296", "18446744073709551615"];
    let runs: std::collections::BTreeSet<String> = seeds.iter().map(|seed| run(seed)).collect();
    assert_eq!(runs.len(), seeds.len());
}

#[test]
fn earliest_runs_of_many_sheets() {
    let folder = Folder::new();
    for (made, bytes) in many_sheets(&folder, 2, 60) {
        folder.write("a.tsh", bytes);
        let ran = folder.run(&["run", "a.tsh"]).ends(0);
        let longest = made.tasks.iter().map(|task| u64::from(task.period)).max();
        let ticks = (2 * longest.unwrap_or(0)).clamp(40, 2000);
        for log in holds(&ran) {
            earliest(&log, ticks, &ran);
        }
        reads_back(&folder, &["run", "a.tsh"], &ran);
        let named = folder.run(&["run", "a.tsh", "--earliest"]).ends(0);
        assert_eq!(named.out, ran.out);
    }
}

/// Each task is released at the first moment, and then whenever its period has passed, and never finished.
fn earliest(log: &CoreLog, ticks: u64, ran: &Ran) {
    let mut releases = vec![Vec::new(); 64];
    let mut now = 0;
    for (call, answer) in &log.calls {
        match (call, answer) {
            (Call::Tick, _) => now += 1,
            (Call::Release(task), Answer::Accepted) => releases[usize::from(*task)].push(now),
            other => panic!("{other:?}: {ran}"),
        }
    }
    assert_eq!(now, ticks, "{ran}");
    for task in &log.tasks {
        let period = task.period as usize;
        let expected: Vec<u64> = (0..ticks).step_by(period).collect();
        let mut given = releases[usize::from(task.number)].clone();
        given.retain(|&moment| moment < ticks);
        assert_eq!(given, expected, "task {}: {ran}", task.number);
    }
}

#[test]
fn so_many_ticks() {
    let folder = Folder::new();
    folder.write("a.tsh", two_cores().by_core());
    for ticks in [1, 2, 39, 100, 5000] {
        for how in [&["--earliest"][..], &["--random", "3"], &[]] {
            let count = ticks.to_string();
            let words = [&["run", "a.tsh", "--ticks", &count], how].concat();
            let cores = holds(&folder.run(&words));
            for log in cores {
                let given = log.calls.iter().filter(|(call, _)| *call == Call::Tick);
                assert_eq!(given.count(), ticks);
            }
        }
    }
    let ran = folder.run(&[
        "run", "a.tsh", "--ticks", "100000", "--core", "0", "-o", "long.log",
    ]);
    ran.ends(0).prints("100000 ticks").prints("none is late");
    let again = folder.run(&[
        "run",
        "a.tsh",
        "--calls",
        "long.log",
        "--core",
        "0",
        "-o",
        "again.log",
    ]);
    again.ends(0);
    assert!(folder.read("long.log") == folder.read("again.log"));
}

#[test]
fn one_core_alone() {
    let folder = Folder::new();
    folder.write("a.tsh", two_cores().by_number());
    let all = folder.run(&["run", "a.tsh", "--ticks", "60"]).ends(0).out;
    let all = read_log(&all);
    for core in ["0", "1"] {
        let ran = folder.run(&["run", "a.tsh", "--core", core, "--ticks", "60"]);
        let alone = holds(&ran);
        assert_eq!(alone.len(), 1);
        assert_eq!(alone[0], all[core.parse::<usize>().expect("a number")]);
        reads_back(&folder, &["run", "a.tsh", "--core", core], &ran);
        // its log names its core
        reads_back(&folder, &["run", "a.tsh"], &ran);
    }
    let ran = folder
        .run(&["run", "a.tsh", "--core", "2"])
        .prints_nothing();
    assert_ne!(ran.status, 0);
    ran.tells("core");
}

#[test]
fn the_run_of_the_specification() {
    let folder = Folder::new();
    folder.write("a.tsh", full_core().by_number());
    let calls = "release 0\nrelease 1\nticks 4\nrelease 0\ntick\nrelease 0\nticks 4\n";
    folder.write("calls", calls);
    let ran = folder.run(&["run", "a.tsh", "--calls", "calls"]).ends(0);
    let log = &holds(&ran)[0];
    let ticks = [0, 1, 1, 1, 1, 0, 1, 1, 1].map(Answer::Ran);
    let given = log.calls.iter().filter(|(call, _)| *call == Call::Tick);
    assert!(given.map(|(_, answer)| *answer).eq(ticks), "{ran}");
    let early = (Call::Release(0), Answer::Refused(18, 0));
    assert_eq!(log.calls[6], early, "{ran}");
    let rows = table(&ran.out);
    assert_eq!(rows[1].ends, ("9".to_owned(), "0".to_owned()));
}

#[test]
fn the_strokes_of_the_specification() {
    let folder = Folder::new();
    folder.write("a.tsh", strokes_of(4).in_strokes());
    let calls = "release 1\ntick\nrelease 0\nticks 5\nrelease 0\nticks 4\n";
    folder.write("calls", calls);
    let ran = folder.run(&["run", "a.tsh", "--calls", "calls"]).ends(0);
    let log = &holds(&ran)[0];
    assert_eq!(log.tasks[1].stroke, 4);
    let mut ticks = [1, 1, 1, 1, 0, 1, 1, 1, 0].map(Answer::Ran).to_vec();
    ticks.push(Answer::Idle);
    let given = log.calls.iter().filter(|(call, _)| *call == Call::Tick);
    assert!(given.map(|(_, answer)| *answer).eq(ticks), "{ran}");
    assert_eq!(unbroken(log), 5);
    let rows = table(&ran.out);
    assert_eq!(rows[0].ends, ("4".to_owned(), "0".to_owned()));
    assert_eq!(rows[1].ends, ("8".to_owned(), "1".to_owned()));
    reads_back(&folder, &["run", "a.tsh"], &ran);
    // the same calls without strokes
    folder.write("b.tsh", full_core().by_number());
    let plain = folder.run(&["run", "b.tsh", "--calls", "calls"]).ends(0);
    assert_eq!(unbroken(&holds(&plain)[0]), 0);
    assert_eq!(table(&plain.out)[0].ends.0, "1");
}

#[test]
fn strokes_of_one_tick_run_as_version_1() {
    let folder = Folder::new();
    for (made, _) in many_sheets(&folder, 4, 20) {
        let made = made.with_strokes(&[1; 64]);
        folder.write("a.tsh", made.by_number());
        folder.write("b.tsh", made.in_strokes());
        for how in [&["--earliest"][..], &["--random", "5"]] {
            let one = folder.run(&[&["run", "a.tsh"], how].concat()).ends(0);
            let three = folder.run(&[&["run", "b.tsh"], how].concat()).ends(0);
            assert_eq!(one.out, three.out);
        }
    }
}

#[test]
fn the_bench_of_the_specification() {
    let folder = Folder::new();
    folder.write("a.jobs", "5 2\n7 4\n");
    let calls = "release 0\nrelease 1\nticks 5\nrelease 0\nticks 2\nrelease 1\n";
    folder.write("calls", calls);
    let words = ["run", "--bench", "a.jobs"];
    let ran = folder
        .run(&[&words[..], &["--calls", "calls"]].concat())
        .ends(1);
    let log = &holds(&ran)[0];
    assert_eq!(log.core, None);
    let last = log.calls.last().expect("a call");
    assert_eq!(*last, (Call::Release(1), Answer::Refused(19, 1)));
    assert_eq!(log.tasks[1].within, 7, "a job has its period to end in");
    reads_back(&folder, &words, &ran);
}

#[test]
fn a_finish_beside_the_last_tick() {
    let folder = Folder::new();
    // task 1 has 9 ticks; after the ninth a finish is too late, before it it counts
    folder.write("a.jobs", "5 5\n9 7\n");
    for (calls, status) in [
        (
            "release 0\nrelease 1\nticks 5\nrelease 0\nticks 3\nfinish 1\ntick\n",
            0,
        ),
        (
            "release 0\nrelease 1\nticks 5\nrelease 0\nticks 4\nfinish 1\n",
            1,
        ),
        ("release 0\nrelease 1\nticks 5\nrelease 0\nticks 4\n", 1),
        ("release 0\nrelease 1\nticks 5\nrelease 0\nticks 3\n", 0),
        (
            "release 0\nrelease 1\nticks 5\nrelease 0\nticks 5\nfinish 1\nticks 9\n",
            1,
        ),
    ] {
        let ran = folder.run_on(&["run", "--bench", "a.jobs", "--calls", "-"], calls);
        holds(&ran);
        ran.ends(status);
    }
}

#[test]
fn the_bench_and_the_margins_agree() {
    let folder = Folder::new();
    let mut rng = Rng(9);
    let mut seen = [0; 2];
    for _ in 0..120 {
        let longest = rng.pick(&[6, 12, 40]);
        let jobs: Vec<(u16, u16)> = (0..rng.range(1, 6))
            .map(|_| {
                let period = rng.range(1, longest);
                (period as u16, rng.range(1, (period / 3).max(1)) as u16)
            })
            .collect();
        folder.write("a.jobs", text_of(&jobs));
        let margins = folder.run(&["margins", "a.jobs"]).status;
        let words = ["run", "--bench", "a.jobs"];
        // all released together, and then as early as may be: the first task with a margin below zero is late
        let ran = folder.run(&[&words[..], &["--ticks", "400"]].concat());
        holds(&ran);
        assert_eq!(ran.status, margins, "{ran}");
        reads_back(&folder, &words, &ran);
        let seed = rng.word().to_string();
        let ran = folder.run(&[&words[..], &["--random", &seed, "--ticks", "300"]].concat());
        holds(&ran);
        assert!(ran.status <= margins, "{ran}");
        reads_back(&folder, &words, &ran);
        seen[margins as usize] += 1;
    }
    assert!(seen.iter().all(|&count| count > 20), "{seen:?}");
}

#[test]
fn random_calls_by_hand() {
    let folder = Folder::new();
    let mut rng = Rng(21);
    for (made, bytes) in many_sheets(&folder, 3, 60) {
        folder.write("a.tsh", bytes);
        let mut calls = String::new();
        let mut cores: Vec<u8> = (0..made.cores.len() as u8).collect();
        if rng.range(0, 1) == 0 {
            cores.reverse();
        }
        for core in &cores {
            calls += &format!("core {core} # calls of {core}\r\n\n");
            for _ in 0..rng.range(0, 60) {
                let number = rng.pick(&[0, 1, 2, 3, 63, 64, 255]).min(rng.range(0, 255));
                calls += &match rng.range(0, 9) {
                    0..=3 => format!("release {number}\n"),
                    4 => format!("  finish\t{number}  # early\n"),
                    5 => format!("ticks {}\n", rng.range(1, 9)),
                    _ => "tick\n".to_owned(),
                };
            }
        }
        let ran = folder
            .run_on(&["run", "a.tsh", "--calls", "-"], &calls)
            .ends(0);
        let given: Vec<Option<u8>> = holds(&ran).iter().map(|log| log.core).collect();
        assert!(cores.into_iter().map(Some).eq(given), "{ran}");
        reads_back(&folder, &["run", "a.tsh"], &ran);
    }
}

#[test]
fn what_is_no_sheet_or_no_list() {
    let folder = Folder::new();
    let good = full_core().by_number();
    folder.write("a.jobs", "5 1\n9 7\n");
    folder.write("bad.tsh", &good[..35]);
    folder.write("none.tsh", "");
    for (file, word) in [
        ("a.jobs", "refused 2"),
        ("bad.tsh", "refused 5"),
        ("none.tsh", "refused 1"),
    ] {
        let ran = folder.run(&["run", file]).ends(1).prints_nothing();
        ran.tells(file).tells(word);
    }
    folder.write("good.tsh", &good);
    let ran = folder
        .run(&["run", "--bench", "good.tsh"])
        .ends(1)
        .prints_nothing();
    ran.tells("good.tsh");
    folder.run(&["run", "none"]).ends(2).tells("none");
    folder
        .run(&["run", "good.tsh", "--calls", "none"])
        .ends(2)
        .tells("none");
    // a sheet as calls
    folder
        .run(&["run", "good.tsh", "--calls", "good.tsh"])
        .ends(2)
        .tells("line 1");
}

#[test]
fn both_from_standard_input() {
    let folder = Folder::new();
    folder.write("a.tsh", full_core().by_number());
    folder.write("a.jobs", "5 1 key\n9 7 r\n");
    let tick = folder
        .run_on(&["run", "a.tsh", "--calls", "-"], "tick\n")
        .ends(0);
    tick.prints("tick idle");
    let sheet = full_core().by_number();
    folder.run_on(&["run", "-", "--ticks", "3"], &sheet).ends(0);
    let named = folder.run_on(&["run", "a.tsh", "--names", "-"], "5 1 key\n9 7 r\n");
    named.ends(0).prints("name key");
    for words in [
        &["run", "-", "--calls", "-"][..],
        &["run", "-", "--names", "-"],
        &["run", "a.tsh", "--calls", "-", "--names", "-"],
        &["draw", "-", "--calls", "-"],
        &["draw", "-", "--names", "-"],
    ] {
        let ran = folder.run_on(words, &sheet).ends(2).prints_nothing();
        ran.tells("standard input");
    }
}

#[test]
fn the_examples() {
    let folder = Folder::new();
    for name in ["full-core", "ten-tasks", "sixty-four"] {
        let jobs = example(&format!("{name}.jobs"));
        let jobs = jobs.to_str().expect("text");
        folder.run(&["plan", jobs, "-o", "a.tsh"]).ends(0);
        folder.run(&["move", "a.tsh", "-o", "b.tsh"]).ends(0);
        for how in [
            &["--ticks=700"][..],
            &["--random=1", "--ticks=700"],
            &["--random=2"],
        ] {
            let ran = folder.run(&[&["run", "a.tsh"], how].concat()).ends(0);
            holds(&ran);
            let moved = folder.run(&[&["run", "b.tsh"], how].concat());
            assert_eq!(moved.out, ran.out, "both versions run alike");
            reads_back(&folder, &["run", "b.tsh"], &ran);
        }
    }
}

#[test]
fn the_longest_periods() {
    let folder = Folder::new();
    let tasks = [task(60_000, 30_000, 0, 1), task(60_000, 30_000, 0, 1)];
    let made = sheet(&tasks, &[core(60_000, 1)]);
    folder.write("a.tsh", made.by_number());
    let ran = folder.run(&["run", "a.tsh", "--ticks", "100000"]).ends(0);
    let rows = table(&ran.out);
    assert_eq!(rows[0].ends.0, "30000");
    assert_eq!(rows[1].ends, ("60000".to_owned(), "0".to_owned()));
    let short = folder.run(&["run", "a.tsh"]).ends(0);
    assert_eq!(holds(&short)[0].calls.len(), 2002);
}
