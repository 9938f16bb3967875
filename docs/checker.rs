// A checker of timing sheets in one file, written to be read. It needs a Rust compiler and nothing else:
//
//     rustc --edition 2021 -O docs/checker.rs -o checker
//     ./checker < SHEET
//
// A timing sheet is a file of at most 712 bytes. It says which core of a machine runs each of up to
// 64 tasks, how often a task comes (its period, in ticks) and how many ticks it then needs (its
// budget), and it carries figures (pivot, divisor, factor) that show that every job ends on time.
// The checker says whether they do show it. docs/SHEET.md has the whole specification; the sections
// named below are its sections. Section 4 is the list of rules, and the rules stand here in its order.
//
// The answer is one line. `accepted tasks 2 cores 1`: no rule is broken, and a machine can run by the
// sheet. `refused 14 place 64`: rule 14 is the first that is broken. The place is the task's number
// (in version 2 its position), or 64 plus the core's number, or for rule 6 the offset of the byte, or
// 0 where nothing is named. The exit status is 0 for accepted, 1 for refused, and 2 if there is an
// argument, or standard input cannot be read, or standard output cannot be written.

use std::io::{self, Read, Write};
use std::process::ExitCode;

/// What the checker says of a sheet.
#[derive(Clone, Copy, Debug, PartialEq, Eq)]
pub enum Answer {
    Accepted { tasks: u8, cores: u8 },
    Refused { number: u8, place: u16 },
}

// Section 2: the lengths of the header, of a task record and of a core record.
const HEADER: usize = 8;
const TASK: usize = 10;
const CORE: usize = 8;

/// A task record. Its letters in the specification: p, e, q, M.
struct Task {
    period: u64,
    budget: u64,
    /// Byte 4: the task's core, or in version 2 its old number.
    byte_4: usize,
    /// Byte 5: the stroke length in version 3, and spare in the others.
    stroke: u64,
    factor: u64,
}

/// A core record. Its letters in the specification: Q, D.
struct Core {
    pivot: u64,
    /// Byte 2: how many tasks the core has in version 2, and spare in the others.
    count: usize,
    divisor: u64,
}

/// The first rule that the sheet breaks, of those in section 4; or its counts, if it breaks none.
pub fn check(sheet: &[u8]) -> Answer {
    // Rule 1, Stub.
    if sheet.len() < HEADER {
        return refused(1, 0);
    }

    // Rule 2, Mark.
    if &sheet[0..3] != b"TSH" {
        return refused(2, 0);
    }

    // Rule 3, Version.
    let version = two_bytes(sheet, 3);
    if !(1..=3).contains(&version) {
        return refused(3, 0);
    }

    // Rule 4, Count.
    let n = usize::from(sheet[5]);
    let c = usize::from(sheet[6]);
    if n > 64 || c > 8 {
        return refused(4, 0);
    }

    // Rule 5, Length. From here on every record is there.
    if sheet.len() != HEADER + TASK * n + CORE * c {
        return refused(5, 0);
    }
    let task_at = |i: usize| HEADER + TASK * i;
    let core_at = |k: usize| HEADER + TASK * n + CORE * k;

    // Rule 6, Spare: byte 7 of the header; byte 5 of each task record, but in version 3; bytes 2 and 3
    // of each core record, in version 2 byte 3 alone. They are put together by rising offset.
    let mut spare = vec![7];
    if version != 3 {
        spare.extend((0..n).map(|i| task_at(i) + 5));
    }
    for k in 0..c {
        if version != 2 {
            spare.push(core_at(k) + 2);
        }
        spare.push(core_at(k) + 3);
    }
    if let Some(offset) = spare.into_iter().find(|&at| sheet[at] != 0) {
        return refused(6, offset);
    }

    let tasks: Vec<Task> = (0..n).map(|i| read_task(sheet, task_at(i))).collect();
    let cores: Vec<Core> = (0..c).map(|k| read_core(sheet, core_at(k))).collect();

    // Rule 7, Period.
    if let Some(i) = (0..n).find(|&i| !(1..=60_000).contains(&tasks[i].period)) {
        return refused(7, i);
    }

    // Rule 8, Budget.
    if let Some(i) = (0..n).find(|&i| !(1..=tasks[i].period).contains(&tasks[i].budget)) {
        return refused(8, i);
    }

    // Rule 25, Stroke: in version 3 alone (section 14).
    if version == 3 {
        if let Some(i) = (0..n).find(|&i| !(1..=tasks[i].budget).contains(&tasks[i].stroke)) {
            return refused(25, i);
        }
    }

    // The number and the core of each task. In version 2 byte 4 is the number, and the cores follow
    // from the counts: the first tasks are core 0's, the next ones core 1's, and so on (section 12).
    let mut number_of: Vec<usize> = Vec::new();
    let mut core_of: Vec<usize> = Vec::new();
    if version == 2 {
        number_of.extend(tasks.iter().map(|task| task.byte_4));
        for (k, core) in cores.iter().enumerate() {
            core_of.extend(vec![k; core.count]);
        }
    } else {
        number_of.extend(0..n);
        core_of.extend(tasks.iter().map(|task| task.byte_4));
    }
    // Section 1: shorter periods have priority, and of equal ones the task with the lower number.
    // Of two tasks the one with the lower pair comes first.
    let priority = |i: usize| (tasks[i].period, number_of[i]);

    // Rule 23, Order: in version 2 alone (section 12).
    if version == 2 {
        // The numbers are each of 0 to n - 1 once.
        let mut seen = vec![false; n];
        for &number in &number_of {
            if number >= n || seen[number] {
                return refused(23, 0);
            }
            seen[number] = true;
        }
        // The counts add up to n: each count has put so many tasks into this list.
        if core_of.len() != n {
            return refused(23, 0);
        }
        // On each core every task has priority over the one behind it.
        if (1..n).any(|i| core_of[i - 1] == core_of[i] && priority(i - 1) > priority(i)) {
            return refused(23, 0);
        }
    }

    // Rule 9, Core. In version 2 it cannot be broken here.
    if let Some(i) = (0..n).find(|&i| core_of[i] >= c) {
        return refused(9, i);
    }

    // Rule 10, Bare.
    if let Some(k) = (0..c).find(|k| !core_of.contains(k)) {
        return refused(10, 64 + k);
    }

    // Rule 11, Factor: those of all tasks, then pivots and divisors.
    if let Some(i) = (0..n).find(|&i| !(1..=120_000).contains(&tasks[i].factor)) {
        return refused(11, i);
    }
    let pivot_in_range = |k: usize| (1..=60_000).contains(&cores[k].pivot);
    let divisor_in_range = |k: usize| (1..=120_000).contains(&cores[k].divisor);
    if let Some(k) = (0..c).find(|&k| !pivot_in_range(k) || !divisor_in_range(k)) {
        return refused(11, 64 + k);
    }

    // From here on every field is in its range. So no product or sum below overflows 64 bits: the
    // greatest is that of rule 14, less than 64 * 60,000 * 120,000 * 120,000 + 254 * 120,000 < 2^56.

    // Rule 12, Stretch (section 3).
    for (i, task) in tasks.iter().enumerate() {
        let core = &cores[core_of[i]];
        if core.pivot * task.factor > task.period * core.divisor {
            return refused(12, i);
        }
    }

    // The tasks of each core, in order of priority.
    let mut tasks_on: Vec<Vec<usize>> = vec![Vec::new(); c];
    for i in 0..n {
        tasks_on[core_of[i]].push(i);
    }
    for on_core in &mut tasks_on {
        on_core.sort_by_key(|&i| priority(i));
    }

    // Rule 13, Chain (section 3).
    for on_core in &tasks_on {
        for pair in on_core.windows(2) {
            if tasks[pair[1]].factor % tasks[pair[0]].factor != 0 {
                return refused(13, pair[1]);
            }
        }
    }

    // Rule 14, Overload.
    for (k, core) in cores.iter().enumerate() {
        let on_core: Vec<&Task> = tasks_on[k].iter().map(|&i| &tasks[i]).collect();
        let fits = match version {
            3 => time_for_each(core, &on_core),
            _ => load_at_most_one(core, &on_core),
        };
        if !fits {
            return refused(14, 64 + k);
        }
    }

    Answer::Accepted {
        tasks: sheet[5],
        cores: sheet[6],
    }
}

/// Rule 14 in versions 1 and 2: the third condition of section 3. The core has a task, by rule 10, and
/// its tasks are given by priority. Every division is exact, by rule 13.
fn load_at_most_one(core: &Core, tasks: &[&Task]) -> bool {
    let last = tasks[tasks.len() - 1].factor;
    let mut sum = 0;
    for task in tasks {
        sum += task.budget * core.divisor * (last / task.factor);
    }
    sum <= core.pivot * last
}

/// Rule 14 in version 3 (section 14), likewise: each task, by itself, has time for its own work, for
/// that of the tasks above it, and for one stroke of a task below it that has begun.
fn time_for_each(core: &Core, tasks: &[&Task]) -> bool {
    for (i, task) in tasks.iter().enumerate() {
        let mut sum = 0;
        for other in &tasks[..=i] {
            sum += other.budget * core.divisor * (task.factor / other.factor);
        }
        let wait = tasks[i + 1..].iter().map(|below| below.stroke - 1).max();
        sum += wait.unwrap_or(0) * core.divisor;
        if sum > core.pivot * task.factor {
            return false;
        }
    }
    true
}

fn read_task(sheet: &[u8], at: usize) -> Task {
    Task {
        period: two_bytes(sheet, at),
        budget: two_bytes(sheet, at + 2),
        byte_4: usize::from(sheet[at + 4]),
        stroke: u64::from(sheet[at + 5]),
        factor: four_bytes(sheet, at + 6),
    }
}

fn read_core(sheet: &[u8], at: usize) -> Core {
    Core {
        pivot: two_bytes(sheet, at),
        count: usize::from(sheet[at + 2]),
        divisor: four_bytes(sheet, at + 4),
    }
}

/// Two bytes as a number, the low one first.
fn two_bytes(sheet: &[u8], at: usize) -> u64 {
    u64::from(sheet[at]) + 256 * u64::from(sheet[at + 1])
}

/// Four bytes as a number, the low one first.
fn four_bytes(sheet: &[u8], at: usize) -> u64 {
    two_bytes(sheet, at) + 65_536 * two_bytes(sheet, at + 2)
}

/// Every place is a task's number, 64 plus a core's, or an offset: at most 711.
fn refused(number: u8, place: usize) -> Answer {
    Answer::Refused {
        number,
        place: place as u16,
    }
}

/// Unused where this file is a module of another program. On Unix a closed standard input counts as
/// empty, and what goes to a closed standard output is lost: Rust opens /dev/null for them.
#[allow(dead_code)]
fn main() -> ExitCode {
    if std::env::args_os().len() > 1 {
        let _ = writeln!(io::stderr(), "usage: checker < SHEET");
        return ExitCode::from(2);
    }
    let mut sheet = Vec::new();
    if let Err(error) = io::stdin().read_to_end(&mut sheet) {
        let _ = writeln!(io::stderr(), "checker: standard input: {error}");
        return ExitCode::from(2);
    }
    let (line, status) = match check(&sheet) {
        Answer::Accepted { tasks, cores } => (format!("accepted tasks {tasks} cores {cores}"), 0),
        Answer::Refused { number, place } => (format!("refused {number} place {place}"), 1),
    };
    let mut output = io::stdout();
    if let Err(error) = writeln!(output, "{line}").and_then(|()| output.flush()) {
        let _ = writeln!(io::stderr(), "checker: standard output: {error}");
        return ExitCode::from(2);
    }
    ExitCode::from(status)
}
