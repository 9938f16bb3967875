//! Reads the files of vectors/ and puts every case to the library, the
//! reference and, where it is a check, docs/checker.rs; and says what cases the
//! files must have.

#[path = "../../../../docs/checker.rs"]
mod checker;
mod contents;

use reference::{CheckAnswer, Core, CoreAnswer, ListAnswer, MarginAnswer, MoveAnswer, PlanAnswer};
use reference::{RowAnswer, TickAnswer};
use std::fs;
use std::path::PathBuf;

const FILES: [&str; 9] = [
    "check-1.txt",
    "check-2.txt",
    "check-3.txt",
    "list.txt",
    "margin.txt",
    "move.txt",
    "plan.txt",
    "row.txt",
    "run.txt",
];

fn folder() -> PathBuf {
    PathBuf::from(concat!(env!("CARGO_MANIFEST_DIR"), "/../../vectors"))
}

/// A case: the last comment before its lines, and the lines.
#[derive(Default)]
struct Case {
    title: String,
    lines: Vec<String>,
}

fn cases(name: &str) -> Vec<Case> {
    let text = fs::read_to_string(folder().join(name)).expect(name);
    let mut cases = vec![Case::default()];
    for line in text.lines() {
        let case = cases.last_mut().expect("there is one");
        if line.is_empty() {
            cases.push(Case::default());
        } else if let Some(title) = line.strip_prefix("# ") {
            case.title = title.to_string();
        } else {
            case.lines.push(line.to_string());
        }
    }
    cases.retain(|case| !case.lines.is_empty());
    cases
}

/// What stands behind the word with which a line begins.
fn field<'a>(line: &'a str, word: &str) -> &'a str {
    let rest = line.strip_prefix(word).and_then(|l| l.strip_prefix(' '));
    rest.unwrap_or_else(|| panic!("no {word}: {line}"))
}

fn number(text: &str) -> u64 {
    text.parse().expect(text)
}

fn bytes(hex: &str) -> Vec<u8> {
    let digits = hex.trim_matches('-').as_bytes();
    let value = |digit: u8| (digit as char).to_digit(16).expect(hex) as u8;
    let pair = |pair: &[u8]| value(pair[0]) * 16 + value(pair[1]);
    digits.chunks(2).map(pair).collect()
}

fn hex(bytes: &[u8]) -> String {
    match bytes {
        [] => "-".to_string(),
        _ => bytes.iter().map(|byte| format!("{byte:02x}")).collect(),
    }
}

/// The calls of an implementation.
struct Calls {
    name: &'static str,
    check: fn(&[u8]) -> CheckAnswer,
    list: fn(&[u8], &mut [u8]) -> ListAnswer,
    plan: fn(&[u8], u64, u64, &mut [u8]) -> PlanAnswer,
    move_sheet: fn(&[u8], &mut [u8]) -> MoveAnswer,
    margin: fn(&[u8], u64) -> MarginAnswer,
    start_sheet: fn(&[u8], u64) -> CoreAnswer,
    start_list: fn(&[u8]) -> CoreAnswer,
    release: fn(Core, u64) -> CoreAnswer,
    finish: fn(Core, u64) -> CoreAnswer,
    tick: fn(Core) -> TickAnswer,
    tick_row: fn(&mut [Core], &mut [u8]) -> RowAnswer,
}

const LIBRARY: Calls = Calls {
    name: "the library",
    check: binding::check,
    list: binding::list_into,
    plan: binding::plan,
    move_sheet: binding::move_sheet,
    margin: binding::margin,
    start_sheet: binding::start_sheet,
    start_list: binding::start_list,
    release: binding::release,
    finish: binding::finish,
    tick: binding::tick,
    tick_row: binding::tick_row,
};

const REFERENCE: Calls = Calls {
    name: "the reference",
    check: reference::check,
    list: reference::list_into,
    plan: reference::plan,
    move_sheet: reference::move_sheet,
    margin: reference::margin,
    start_sheet: reference::start_sheet,
    start_list: reference::start_list,
    release: reference::release,
    finish: reference::finish,
    tick: reference::tick,
    tick_row: reference::tick_row,
};

/// Every line of every case of a file, its answers given anew.
fn compare(name: &str, answered: fn(&Calls, &[String]) -> Vec<String>) {
    binding::assert_layout();
    for calls in [LIBRARY, REFERENCE] {
        for case in cases(name) {
            let lines = answered(&calls, &case.lines);
            assert_eq!(lines, case.lines, "{name}: {}: {}", case.title, calls.name);
        }
    }
}

fn refused(number: u8, place: u64) -> String {
    format!("refused {number} place {place}")
}

/// What a lent buffer holds before a call.
const HELD: u8 = 0xA5;

/// The bytes that a call wrote at the front of its buffer; behind them it must
/// hold what it held.
fn written(buffer: &[u8], length: u16) -> &[u8] {
    let (written, kept) = buffer.split_at(length as usize);
    assert!(kept.iter().all(|&byte| byte == HELD));
    written
}

fn listing(calls: &Calls, sheet: &[u8]) -> Vec<String> {
    let mut text = vec![HELD; 8192];
    let answer = (calls.list)(sheet, &mut text);
    assert_eq!((answer.refusal, answer.place), (0, 0));
    let text = str::from_utf8(written(&text, answer.length)).expect("ASCII");
    assert!(text.ends_with('\n'));
    text.lines().map(|line| format!("| {line}")).collect()
}

fn check(calls: &Calls, lines: &[String]) -> Vec<String> {
    let sheet = bytes(field(&lines[0], "sheet"));
    let answer = (calls.check)(&sheet);
    let mut said = vec![lines[0].clone()];
    if answer.refusal == 0 {
        said.push(format!(
            "accepted tasks {} cores {}",
            answer.tasks, answer.cores
        ));
        said.extend(listing(calls, &sheet));
    } else {
        said.push(refused(answer.refusal, answer.place as u64));
        // a refused sheet's listing is that one line
        assert_eq!(listing(calls, &sheet), [format!("| {}", said[1])]);
    }
    said
}

fn list(calls: &Calls, lines: &[String]) -> Vec<String> {
    let sheet = bytes(field(&lines[0], "sheet"));
    let mut out = vec![HELD; number(field(&lines[1], "room")) as usize];
    let answer = (calls.list)(&sheet, &mut out);
    let text = str::from_utf8(written(&out, answer.length)).expect("ASCII");
    let mut said = lines[..2].to_vec();
    if answer.refusal == 0 {
        said.push(format!("accepted length {}", answer.length));
        said.extend(text.lines().map(|line| format!("| {line}")));
    } else {
        said.push(refused(answer.refusal, answer.place as u64));
    }
    said
}

fn plan(calls: &Calls, lines: &[String]) -> Vec<String> {
    let list = bytes(field(&lines[0], "list"));
    let limit = number(field(&lines[1], "limit"));
    let start = number(field(&lines[2], "start"));
    let mut out = vec![HELD; number(field(&lines[3], "room")) as usize];
    let answer = (calls.plan)(&list, limit, start, &mut out);
    let sheet = written(&out, answer.length);
    let mut said = lines[..4].to_vec();
    if answer.refusal == 0 {
        let (n, c, length) = (answer.tasks, answer.cores, answer.length);
        said.push(format!("accepted tasks {n} cores {c} length {length}"));
        said.push(format!("gives {}", hex(sheet)));
        said.extend(listing(calls, sheet));
    } else {
        said.push(refused(answer.refusal, answer.place as u64));
    }
    said
}

fn move_sheet(calls: &Calls, lines: &[String]) -> Vec<String> {
    let sheet = bytes(field(&lines[0], "sheet"));
    let mut out = vec![HELD; number(field(&lines[1], "room")) as usize];
    let answer = (calls.move_sheet)(&sheet, &mut out);
    let moved = written(&out, answer.length);
    let mut said = lines[..2].to_vec();
    if answer.refusal == 0 {
        said.push(format!("accepted length {}", answer.length));
        said.push(format!("gives {}", hex(moved)));
    } else {
        said.push(refused(answer.refusal, answer.place as u64));
    }
    said
}

fn margin(calls: &Calls, lines: &[String]) -> Vec<String> {
    let list = bytes(field(&lines[0], "list"));
    let mut said = vec![lines[0].clone()];
    for line in &lines[1..] {
        let (call, _) = line.split_once(" -> ").expect(line);
        let answer = (calls.margin)(&list, number(field(call, "margin")));
        said.push(match answer.refusal {
            0 => format!("{call} -> {}", answer.margin),
            refusal => format!("{call} -> {}", refused(refusal, answer.place as u64)),
        });
    }
    said
}

fn core_answer(answer: &CoreAnswer) -> String {
    match answer.refusal {
        0 => "accepted".to_string(),
        refusal => refused(refusal, answer.place as u64),
    }
}

/// The answer to a release, finish or tick of a core, which gets its next state.
fn step(calls: &Calls, core: &mut Core, call: &str) -> String {
    if call == "tick" {
        let answer = (calls.tick)(*core);
        *core = answer.core;
        return match (answer.refusal, answer.task) {
            (0, 255) => "idle".to_string(),
            (0, task) => task.to_string(),
            (refusal, _) => refused(refusal, answer.place as u64),
        };
    }
    let answer = match call.split_once(' ').expect(call) {
        ("release", task) => (calls.release)(*core, number(task)),
        ("finish", task) => (calls.finish)(*core, number(task)),
        _ => panic!("{call}"),
    };
    *core = answer.core;
    core_answer(&answer)
}

/// The answer to a tick of the whole row.
fn row(calls: &Calls, row: &mut [Core], lent: &str) -> String {
    let mut answers = bytes(lent);
    let answer = (calls.tick_row)(row, &mut answers);
    match answer.refusal {
        0 => hex(&answers),
        refusal => {
            assert_eq!(hex(&answers), lent, "a refused row writes nothing");
            refused(refusal, answer.place)
        }
    }
}

/// A run of one core and one of a row: the first start makes the core at row
/// position 0, and a call that names no position is of this core.
fn run(calls: &Calls, lines: &[String]) -> Vec<String> {
    let (kind, hex) = lines[0].split_once(' ').expect(&lines[0]);
    let given = bytes(hex);
    let mut cores: Vec<Core> = Vec::new();
    let mut said = vec![lines[0].clone()];
    for line in &lines[1..] {
        let (call, _) = line.split_once(" -> ").expect(line);
        let words: Vec<&str> = call.split(' ').collect();
        let answer = match words[..] {
            ["start", ..] => {
                let started = match (kind, &words[1..]) {
                    ("sheet", [core]) => (calls.start_sheet)(&given, number(core)),
                    ("list", []) => (calls.start_list)(&given),
                    _ => panic!("{line}"),
                };
                cores.push(started.core);
                core_answer(&started)
            }
            ["row", lent] => row(calls, &mut cores, lent),
            ["at", position, ..] => {
                let call = words[2..].join(" ");
                step(calls, &mut cores[number(position) as usize], &call)
            }
            _ => step(calls, &mut cores[0], call),
        };
        said.push(format!("{call} -> {answer}"));
    }
    said
}

#[test]
fn the_checker() {
    for name in ["check-1.txt", "check-2.txt", "check-3.txt"] {
        compare(name, check);
    }
}

#[test]
fn the_simple_checker() {
    for name in ["check-1.txt", "check-2.txt", "check-3.txt"] {
        for Case { title, lines } in cases(name) {
            let said = match checker::check(&bytes(field(&lines[0], "sheet"))) {
                checker::Answer::Accepted { tasks, cores } => {
                    format!("accepted tasks {tasks} cores {cores}")
                }
                checker::Answer::Refused { number, place } => refused(number, place as u64),
            };
            assert_eq!(said, lines[1], "{name}: {title}");
        }
    }
}

#[test]
fn the_lister() {
    compare("list.txt", list);
}

#[test]
fn the_planner() {
    compare("plan.txt", plan);
}

#[test]
fn the_mover() {
    compare("move.txt", move_sheet);
}

#[test]
fn margins() {
    compare("margin.txt", margin);
}

#[test]
fn runs() {
    compare("run.txt", run);
}

#[test]
fn rows() {
    compare("row.txt", run);
}
