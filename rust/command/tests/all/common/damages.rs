//! A damaged sheet for every refusal, in every version where it can occur.

use super::sheets::*;

/// A refused sheet: its number, its place, and the numbers that break the rule.
pub struct Damage {
    pub what: String,
    pub bytes: Vec<u8>,
    pub number: u8,
    pub place: Place,
    /// Numbers that a reader needs to see why.
    pub figures: Vec<u64>,
}

#[derive(Clone, Copy, Debug, PartialEq, Eq)]
pub enum Place {
    Whole,
    Task(usize),
    Core(usize),
    Byte(usize),
}

impl Damage {
    /// The place as the listing has it.
    pub fn listed(&self) -> usize {
        match self.place {
            Place::Whole => 0,
            Place::Task(number) | Place::Byte(number) => number,
            Place::Core(core) => 64 + core,
        }
    }

    /// The place in words.
    pub fn told(&self) -> Option<String> {
        let task = match self.bytes.get(3) {
            Some(2) => "position",
            _ => "task",
        };
        match self.place {
            Place::Whole => None,
            Place::Task(number) => Some(format!("{task} {number}")),
            Place::Core(core) => Some(format!("core {core}")),
            Place::Byte(offset) => Some(format!("byte {offset}")),
        }
    }
}

/// The word of a refusal.
pub fn word(number: u8) -> &'static str {
    let words = [
        "Stub", "Mark", "Version", "Count", "Length", "Spare", "Period", "Budget", "Core", "Bare",
        "Factor", "Stretch", "Chain", "Overload",
    ];
    match number {
        23 => "Order",
        25 => "Stroke",
        _ => words[usize::from(number) - 1],
    }
}

/// Gathers damages of sheets of one version.
struct Gathered {
    version: u8,
    damages: Vec<Damage>,
}

impl Gathered {
    fn add(&mut self, what: &str, bytes: Vec<u8>, number: u8, place: Place, figures: &[u64]) {
        self.damages.push(Damage {
            what: format!("version {}: {what}", self.version),
            bytes,
            number,
            place,
            figures: figures.to_vec(),
        });
    }
}

impl Gathered {
    /// A sheet that is refused at this task, which in version 2 goes by its position.
    fn at_task(&mut self, what: &str, made: &Sheet, number: u8, task: usize, figures: &[u64]) {
        let place = match self.version {
            2 => made.position(task),
            _ => task,
        };
        let bytes = made.write(self.version);
        self.add(what, bytes, number, Place::Task(place), figures);
    }
}

/// Every refusal of every version.
pub fn damages() -> Vec<Damage> {
    let mut all = Vec::new();
    for version in [1, 2, 3] {
        let mut gathered = Gathered {
            version,
            damages: Vec::new(),
        };
        frame(&mut gathered);
        fields(&mut gathered);
        core_fields(&mut gathered);
        bare(&mut gathered);
        stretched(&mut gathered);
        broken(&mut gathered);
        overloaded(&mut gathered);
        match version {
            2 => order(&mut gathered),
            _ => cores(&mut gathered),
        }
        if version == 3 {
            strokes(&mut gathered);
        }
        all.append(&mut gathered.damages);
    }
    all
}

/// Rules 1 to 6 on the five tasks and two cores of section 12.
fn frame(to: &mut Gathered) {
    use Place::{Byte, Whole};
    let good = two_cores().write(to.version);
    for length in [0, 1, 7] {
        let bytes = good[..length].to_vec();
        // of an empty file it is said that it is empty
        let figures = [8, length as u64];
        to.add("a stub", bytes, 1, Whole, &figures[..length.min(1) + 1]);
    }
    to.add("another mark", with(&good, 0, b"TSX"), 2, Whole, &[]);
    to.add("a small letter", with(&good, 0, b"tSH"), 2, Whole, &[]);
    for version in [0, 4, 256 + u16::from(to.version), 65_535] {
        let bytes = with16(&good, 3, version);
        to.add("a version", bytes, 3, Whole, &[u64::from(version)]);
    }
    to.add("65 tasks", with(&good, 5, &[65]), 4, Whole, &[65, 64]);
    to.add("255 tasks", with(&good, 5, &[255]), 4, Whole, &[255, 64]);
    to.add("9 cores", with(&good, 6, &[9]), 4, Whole, &[9, 8]);
    to.add("cut", good[..73].to_vec(), 5, Whole, &[73, 74]);
    to.add("the header alone", good[..8].to_vec(), 5, Whole, &[8, 74]);
    let more = [&good[..], &[0]].concat();
    to.add("one byte more", more, 5, Whole, &[75, 74]);
    to.add("a task more", with(&good, 5, &[6]), 5, Whole, &[74, 84]);
    to.add("a core less", with(&good, 6, &[1]), 5, Whole, &[74, 66]);
    let mut spares = vec![7, core_at(&good, 1) + 3];
    if to.version != 3 {
        spares.extend([task_at(0) + 5, task_at(4) + 5]);
    }
    if to.version != 2 {
        spares.push(core_at(&good, 0) + 2);
    }
    for at in spares {
        let figures = [at as u64];
        to.add(
            "a spare byte",
            with(&good, at, &[0xa5]),
            6,
            Byte(at),
            &figures,
        );
    }
}

/// Rules 7, 8 and 11 of tasks.
fn fields(to: &mut Gathered) {
    use Place::Task;
    let good = two_cores().write(to.version);
    for (position, period) in [(0, 0), (2, 60_001), (4, 65_535)] {
        let bytes = with16(&good, task_at(position), period);
        let figures = [u64::from(period), 60_000];
        to.add("a period", bytes, 7, Task(position), &figures);
    }
    let both = with16(&with16(&good, task_at(3), 0), task_at(1) + 2, 0);
    to.add("a period after a budget", both, 7, Task(3), &[0]);
    for position in 0..5 {
        let period = u16::from(good[task_at(position)]);
        let above = with16(&good, task_at(position) + 2, period + 1);
        let figures = [u64::from(period), u64::from(period) + 1];
        to.add("a budget above", above, 8, Task(position), &figures);
        let none = with16(&good, task_at(position) + 2, 0);
        to.add("a budget of 0", none, 8, Task(position), &[0]);
        for factor in [0, 120_001, u32::MAX] {
            let bytes = with32(&good, task_at(position) + 6, factor);
            let figures = [u64::from(factor), 120_000];
            to.add("a factor", bytes, 11, Task(position), &figures);
        }
    }
}

/// Rule 11 of cores.
fn core_fields(to: &mut Gathered) {
    use Place::Core;
    let good = two_cores().write(to.version);
    for core in 0..2 {
        let at = core_at(&good, core);
        for pivot in [0, 60_001, 65_535] {
            let figures = [u64::from(pivot), 60_000];
            to.add(
                "a pivot",
                with16(&good, at, pivot),
                11,
                Core(core),
                &figures,
            );
        }
        for divisor in [0, 120_001, u32::MAX] {
            let bytes = with32(&good, at + 4, divisor);
            let figures = [u64::from(divisor), 120_000];
            to.add("a divisor", bytes, 11, Core(core), &figures);
        }
    }
}

/// Rule 10.
fn bare(to: &mut Gathered) {
    use Place::Core;
    let cores = [core(9, 1); 3];
    let mut add = |what: &str, tasks: &[Task], count: usize, place: usize, told: u64| {
        let bytes = sheet(tasks, &cores[..count]).write(to.version);
        to.add(what, bytes, 10, Core(place), &[told]);
    };
    add("a bare core", &[task(9, 1, 0, 1)], 2, 1, 1);
    add("bare cores alone", &[], 3, 0, 0);
    add("the first core bare", &[task(9, 1, 1, 1)], 2, 0, 0);
}

/// Rule 12: the figures are Q x M and p x D.
fn stretched(to: &mut Gathered) {
    let mut shorter = full_core();
    shorter.tasks[0].period = 4;
    let mut larger = full_core();
    larger.tasks[1].factor = 3;
    let mut far = two_cores();
    far.tasks[0].factor = 20_001;
    let little = sheet(&[task(60_000, 1, 0, 120_000)], &[core(60_000, 119_999)]);
    let products = [60_000 * 120_000, 60_000 * 119_999];
    to.at_task("a shorter period", &shorter, 12, 0, &[9, 8]);
    to.at_task("a larger factor", &larger, 12, 1, &[27, 18]);
    to.at_task("stretched far", &far, 12, 0, &[9 * 20_001, 9 * 2]);
    to.at_task("stretched by little", &little, 12, 0, &products);
}

/// Rule 13: the figures are the two factors.
fn broken(to: &mut Gathered) {
    let tasks = [task(13, 6, 0, 3), task(7, 1, 0, 2), task(3, 1, 0, 1)];
    let backwards = sheet(&tasks, &[core(3, 1)]);
    let falling = sheet(&[task(5, 1, 0, 2), task(6, 1, 0, 1)], &[core(2, 1)]);
    to.at_task("a broken chain", &three_tasks(6, 3), 13, 2, &[3, 2]);
    to.at_task("a chain backwards", &backwards, 13, 0, &[3, 2]);
    to.at_task("a falling factor", &falling, 13, 1, &[1, 2]);
}

/// Rule 14: the figures are the sum and the capacity.
fn overloaded(to: &mut Gathered) {
    let little = [task(2000, 1999, 0, 1), task(4000, 3, 0, 2)];
    let mut second = two_cores();
    second.tasks[0].budget = 8;
    let cases = [
        ("overload", three_tasks(7, 4), 0),
        ("overload by little", sheet(&little, &[core(2000, 1)]), 0),
        ("the second core", second, 1),
        (
            "the largest sums",
            sheet(
                &[task(60_000, 60_000, 0, 120_000); 64],
                &[core(60_000, 120_000)],
            ),
            0,
        ),
    ];
    for (what, made, core) in cases {
        let (work, room) = made.work(core);
        let bytes = made.write(to.version);
        to.add(what, bytes, 14, Place::Core(core.into()), &[work, room]);
    }
}

/// Rule 9, which version 2 does not have.
fn cores(to: &mut Gathered) {
    use Place::Task;
    let good = two_cores().write(to.version);
    for (number, core) in [(0, 2), (3, 255)] {
        let bytes = with(&good, task_at(number) + 4, &[core]);
        let figures = [u64::from(core), 2];
        to.add("a core that is not there", bytes, 9, Task(number), &figures);
    }
    let alone = sheet(&[task(5, 1, 0, 1)], &[]).write(to.version);
    to.add("tasks without cores", alone, 9, Task(0), &[0]);
}

/// Rule 25, which version 3 alone has, and rule 14 by a stroke: the figures are the sum with the wait and the capacity.
fn strokes(to: &mut Gathered) {
    use Place::{Core, Task};
    let good = two_cores().in_strokes();
    let stroke = |number: usize| task_at(number) + 5;
    for number in 0..5 {
        let budget = good[task_at(number) + 2];
        for length in [0, budget + 1, 255] {
            let bytes = with(&good, stroke(number), &[length]);
            let figures = [u64::from(length), u64::from(budget)];
            to.add("a stroke", bytes, 25, Task(number), &figures);
        }
    }
    let none = with(&good, stroke(1), &[0]);
    let budget = with16(&none, task_at(3) + 2, 0);
    to.add("a budget before a stroke", budget, 8, Task(3), &[0]);
    let core = with(&none, task_at(0) + 4, &[9]);
    to.add("a stroke before a core", core, 25, Task(1), &[0, 2]);
    let bytes = strokes_of(5).in_strokes();
    to.add("a long stroke", bytes, 14, Core(0), &[20, 18]);
    let three = three_tasks(6, 4).with_strokes(&[1, 1, 4]);
    let bytes = three.in_strokes();
    to.add("a stroke of the last task", bytes, 14, Core(0), &[16, 12]);
    let second = two_cores().with_strokes(&[5, 2]);
    let bytes = second.in_strokes();
    to.add("a stroke on the second core", bytes, 14, Core(1), &[20, 18]);
}

/// Rule 23, which version 2 alone has.
fn order(to: &mut Gathered) {
    let good = two_cores().by_core();
    let number = |position: usize| task_at(position) + 4;
    let count = |core: usize| core_at(&good, core) + 2;
    let both =
        |at: [usize; 2], bytes: [u8; 2]| with(&with(&good, at[0], &[bytes[0]]), at[1], &[bytes[1]]);
    let alone = [&b"TSH\x02\x00\x01\x00\x00"[..], &good[8..18]].concat();
    let (numbers, counts) = ([number(1), number(2)], [count(0), count(1)]);
    let cases: [(&str, Vec<u8>, &[u64]); 10] = [
        ("a number twice", with(&good, number(4), &[2]), &[2]),
        ("a number too large", with(&good, number(4), &[5]), &[5]),
        ("the number 255", with(&good, number(0), &[255]), &[255]),
        ("a count more", with(&good, count(1), &[3]), &[6, 5]),
        ("a count less", with(&good, count(0), &[2]), &[4, 5]),
        ("counts above 255", both(counts, [131, 130]), &[261, 5]),
        ("equal periods exchanged", both(numbers, [4, 1]), &[8]),
        (
            "a shorter period behind",
            with16(&good, task_at(2), 7),
            &[7, 8],
        ),
        ("all on one core", both(counts, [5, 0]), &[5, 8]),
        ("tasks without cores", alone, &[]),
    ];
    for (what, bytes, figures) in cases {
        to.add(what, bytes, 23, Place::Whole, figures);
    }
}
