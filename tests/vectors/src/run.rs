//! Runs of one core.

use crate::form::{expect, hex, refused, File};
use crate::plan::jobs;
use crate::sheets::*;
use reference::{finish, release, start_list, start_sheet, tick, Core, CoreAnswer, IDLE};

pub fn file() -> File {
    let about = [
        "Runs of one core: a sheet or a job list, the start, then the calls, each with its answer.",
        "21 is in none of them: it is of a state that no start hands out and no call.",
    ];
    let mut to = Runs(File::new("run.txt", &about));
    starts(&mut to);
    on_time(&mut to);
    refusals(&mut to);
    strokes(&mut to);
    to.0
}

struct Runs(File);

impl Runs {
    /// A run of a sheet's core; `calls` as in `call`.
    fn sheet(&mut self, title: &str, sheet: Bytes, core: u64, calls: &str) {
        let started = start_sheet(&sheet.0, core);
        let head = vec![
            format!("sheet {}", hex(&sheet.0)),
            format!("start {core} -> {}", answer(&started)),
        ];
        self.run(title, head, started.core, calls);
    }

    /// A run of a list on the bench.
    fn list(&mut self, title: &str, list: &[(u16, u16)], calls: &str) {
        self.bytes(title, &jobs(list), calls);
    }

    fn bytes(&mut self, title: &str, list: &[u8], calls: &str) {
        let started = start_list(list);
        let head = vec![
            format!("list {}", hex(list)),
            format!("start -> {}", answer(&started)),
        ];
        self.run(title, head, started.core, calls);
    }

    fn run(&mut self, title: &str, mut lines: Vec<String>, mut core: Core, calls: &str) {
        let (_, started) = lines[1].split_once(" -> ").expect("an answer");
        // s! and refusal:place before the calls, where the start is refused
        let mut words = calls.split_whitespace().peekable();
        let said = match words.next_if(|word| word.starts_with("s!")) {
            Some(word) => refused_as(&word[2..]),
            None => "accepted".to_string(),
        };
        expect(title, &said, started);
        for word in words {
            lines.push(call(title, &mut core, word));
        }
        self.0.case(title, &lines);
    }
}

/// One call as its line. The word is r or f and a number for an accepted release
/// or finish, with ! and refusal:place behind it for a refused one; t and a number
/// for a tick that goes to the task, t- for an idle one.
pub fn call(title: &str, core: &mut Core, word: &str) -> String {
    let (kind, rest) = word.split_at(1);
    if kind == "t" {
        let ticked = tick(*core);
        *core = ticked.core;
        let said = match rest {
            "-" => "idle",
            number => number,
        };
        let answered = match ticked.task {
            IDLE => "idle".to_string(),
            task => task.to_string(),
        };
        expect(&format!("{title}: {word}"), said, &answered);
        return format!("tick -> {said}");
    }
    let (number, said) = match rest.split_once('!') {
        None => (rest, "accepted".to_string()),
        Some((number, refusal)) => (number, refused_as(refusal)),
    };
    let number: u64 = number.parse().expect("a number");
    let (name, answered) = match kind {
        "r" => ("release", release(*core, number)),
        "f" => ("finish", finish(*core, number)),
        _ => panic!("{title}: {word}"),
    };
    *core = answered.core;
    expect(&format!("{title}: {word}"), &said, &answer(&answered));
    format!("{name} {number} -> {said}")
}

pub fn answer(answer: &CoreAnswer) -> String {
    match answer.refusal {
        0 => "accepted".to_string(),
        refusal => refused(refusal, answer.place as u64),
    }
}

/// The answer that refusal:place stands for.
fn refused_as(word: &str) -> String {
    let (number, place) = word.split_once(':').expect("refusal:place");
    format!("refused {number} place {place}")
}

fn starts(to: &mut Runs) {
    to.0.heading(&["Starts; a refused one hands out a state without tasks"]);
    to.sheet(
        "Core 0 of 2 has tasks 3, 1 and 4",
        five(1),
        0,
        "r3 r1 r4 r0!17:0 r2!17:0",
    );
    to.sheet(
        "Core 1 of 2 has tasks 2 and 0",
        five(1),
        1,
        "r2 r0 r1!17:0 r3!17:0 r4!17:0",
    );
    to.sheet(
        "Version 2: the tasks go by their old numbers",
        five(2),
        0,
        "r4 r1 r3 t3 t1 t1 t4 t-",
    );
    to.sheet("9, core 2 of 2", five(1), 2, "s!9:0 r0!17:0 t-");
    to.sheet("9, core 256: its low byte is 0", five(2), 256, "s!9:0 t-");
    to.sheet(
        "9, the largest core number, version 3",
        five(3),
        u64::MAX,
        "s!9:0",
    );
    to.sheet(
        "9, a sheet of no cores has no core 0",
        empty(1),
        0,
        "s!9:0 f0!17:0 t-",
    );
    to.sheet(
        "A refused sheet is refused before the core number",
        pair(1).budget(1, 8),
        7,
        "s!14:64 t- r0!17:0",
    );
    to.sheet("1, no bytes", empty(1).cut(0), 0, "s!1:0");
    to.sheet("23, version 2", five(2).core(4, 2), 0, "s!23:0");
    to.sheet("25, version 3", pair(3).stroke(1, 0), 0, "s!25:1");
    to.sheet(
        "9 of a task, at its own place",
        five(1).core(4, 2),
        0,
        "s!9:4",
    );
    to.list("A list without tasks", &[], "t- r0!17:0 f0!17:0 t-");
    to.bytes("5, a list of 7 bytes", &[5, 0, 1, 0, 9, 0, 7], "s!5:0 t-");
    to.list("4, a list of 65 entries", &[(65, 1); 65], "s!4:0 r0!17:0");
    to.list(
        "7, a list with a period of 0",
        &[(5, 1), (0, 1)],
        "s!7:1 r0!17:0",
    );
    to.list(
        "8, a list with a budget above its period",
        &[(5, 6), (9, 7)],
        "s!8:0 t-",
    );
}

fn on_time(to: &mut Runs) {
    to.0.heading(&["Runs by priority"]);
    to.sheet(
        "Both tasks end in time on a full core, task 1 with its ninth tick",
        pair(1),
        0,
        "r0 r1 t0 t1 t1 t1 t1 r0 t0 t1 t1 t1 f1!20:1 r1",
    );
    to.sheet(
        "The same by the version 2 sheet",
        pair(2),
        0,
        "r0 r1 t0 t1 t1 t1 t1 r0 t0 t1 t1 t1 f1!20:1 r1",
    );
    to.sheet(
        "Nothing is released: idle ticks",
        pair(1),
        0,
        "t- t- r1 t1 t1 t1 t1 t1 t1 t1 t- t-",
    );
    to.sheet(
        "The order of the releases plays no part",
        three(1),
        0,
        "r2 r1 r0 t0 t1 t2 r0 t0 t2 t2 r0 t0 r1 t1 t2 r0 t0 t2 t2 r0 t0 t-",
    );
    to.list(
        "Of one period, the lower number comes first",
        &[(4, 1), (4, 1), (4, 1)],
        "r2 r1 r0 t0 t1 t2 t- r1 r2 t1 t2 t-",
    );
    to.list(
        "A release takes the core from a task below, which goes on later",
        &[(9, 4), (3, 1)],
        "r0 t0 t0 r1 t1 t0 t0 r1 t1 t-",
    );
    to.list(
        "64 tasks of one period: the last alone, then the first, one in the middle and the last",
        &[(3, 1); 64],
        "r63 t63 t- t- r63 r31 r0 t0 t31 t63 t-",
    );
    to.list(
        "A finished job frees the core, and its age stands",
        &[(3, 2), (9, 4)],
        "r0 r1 t0 f0 t1 r0!18:0 t1 r0 t0 t0 t1 t1 t-",
    );
    to.list(
        "A job may be finished before its first tick",
        &[(3, 2), (9, 4)],
        "r0 r1 f0 t1 f1 t- t- r0 t0",
    );
}

fn refusals(to: &mut Runs) {
    to.0.heading(&["17 Unlisted: the core has no task of this number"]);
    to.sheet(
        "Another core's task, and numbers above 63",
        five(1),
        0,
        "r0!17:0 f0!17:0 r5!17:0 r64!17:0 r259!17:0 f256!17:0 r4294967299!17:0 r18446744073709551615!17:0 f18446744073709551615!17:0",
    );

    to.0.heading(&["18 Early: fewer than p ticks since the last accepted release"]);
    to.sheet(
        "Released again after four ticks of five, its job done; accepted after the fifth",
        pair(1),
        0,
        "r0 r1 t0 t1 t1 t1 r0!18:0 t1 r0",
    );
    to.list(
        "Released again while its job is pending",
        &[(3, 2)],
        "r0 r0!18:0 t0 r0!18:0 t0 r0!18:0 t- r0",
    );
    to.list(
        "Released again after a finish; refused releases do not count",
        &[(2, 1)],
        "r0 f0 r0!18:0 t- r0!18:0 t- r0 t0 r0!18:0 t- r0",
    );
    to.list(
        "Idle ticks count as well",
        &[(3, 1)],
        "r0 t0 t- t- t- t- r0 r0!18:0",
    );

    to.0.heading(&["19 Late: the last job is still pending after p ticks; on the bench alone"]);
    to.list(
        "Task 1 after seven ticks, of which it had three; accepted after a finish",
        &[(5, 2), (7, 4)],
        "r0 r1 t0 t0 t1 t1 t1 r0 t0 t0 r1!19:1 r1!19:1 f1 r1 t1",
    );
    to.list(
        "Task 1 has no tick as long as task 0 comes every tick",
        &[(1, 1), (1, 1)],
        "r0 r1 t0 r0 r1!19:1 t0 r1!19:1 t1 r0 r1 t0",
    );

    to.0.heading(&["20 Quiet: nothing is pending"]);
    to.sheet(
        "A finish before the first release",
        pair(1),
        0,
        "f0!20:0 f1!20:1 t-",
    );
    to.list(
        "A finish after the last tick of the job",
        &[(3, 2)],
        "r0 t0 t0 f0!20:0 t- r0",
    );
    to.list(
        "A job is finished once",
        &[(3, 2)],
        "r0 f0 f0!20:0 t- f0!20:0",
    );
}

fn strokes(to: &mut Runs) {
    to.0.heading(&["Strokes of version 3"]);
    to.sheet(
        "Strokes of 4 ticks: task 0, released in the first, waits for its end, and in the second, of 3 ticks, too",
        pair(3),
        0,
        "r1 t1 r0 t1 t1 t1 t0 t1 r0 t1 t1 t0 t-",
    );
    to.sheet(
        "The same releases by version 1: task 0 does not wait",
        pair(1),
        0,
        "r1 t1 r0 t0 t1 t1 t1 t1 r0 t0 t1 t1 t-",
    );
    to.sheet(
        "A finish ends its job's stroke: the next tick is task 0's",
        pair(3),
        0,
        "r1 t1 r0 f1 t0 t-",
    );
    to.sheet(
        "A finish of another job leaves the stroke: task 0 waits for its end",
        three(3),
        0,
        "r2 t2 r0 r1 f1 t2 t2 t0 t2",
    );
    to.sheet(
        "Refused calls leave the stroke",
        pair(3),
        0,
        "r1 t1 r1!18:1 f0!20:0 r7!17:0 r0 t1 r0!18:0 t1 t1 t0 t1",
    );
    to.sheet(
        "After a stroke the choice is free: its own task goes on where no other is pending",
        pair(3),
        0,
        "r1 t1 t1 t1 t1 t1 r0 t1 t1 t0 t-",
    );
    to.sheet(
        "A stroke of task 0: the number 0 is no sign of none",
        sheet(3, &[(20, 4, 0, 3, 4), (5, 1, 0, 1, 1)], &[(5, 1)]),
        0,
        "r0 t0 r1 t0 t0 t1 t0 t-",
    );
    to.sheet(
        "A job of nine ticks in one piece: task 0, released after the first of them, waits for the other eight",
        sheet(3, &[(10, 2, 0, 1, 1), (20, 9, 0, 9, 2)], &[(10, 1)]),
        0,
        "r1 t1 r0 t1 t1 t1 t1 t1 t1 t1 t1 t0 t0 r0 t0 t0 t-",
    );
    to.sheet(
        "Three tasks: after a stroke of the last, the first by priority comes, then the second",
        three(3),
        0,
        "r2 t2 r1 r0 t2 t2 t0 t1 t2 r0 t2 t2 t0",
    );
    to.sheet(
        "Strokes of one tick in version 3 are as in version 1",
        sheet(3, &[(5, 1, 0, 1, 1), (9, 7, 0, 1, 2)], &[(9, 2)]),
        0,
        "r1 t1 r0 t0 t1 t1 t1 t1 r0 t0 t1 t1 t-",
    );
}
