//! Why the records of a version 2 sheet are not in order.

use crate::fields::{Fields, Layout, Task};
use crate::wording::{counted, joined};

/// What is not in order. Each reason is looked at by itself, but neighbours only where the task counts add up, since they say whose
/// neighbours they are.
#[derive(Clone, Debug, Default, PartialEq, Eq)]
pub struct Disorder {
    /// The first old number, of those that there should be, that stands more than once.
    pub repeated: Option<Stands>,
    /// The first old number that is not below the number of tasks.
    pub beyond: Option<Stands>,
    /// Old numbers that no task has.
    pub missing: Vec<u8>,
    /// The task counts, where they do not add up to the number of tasks.
    pub counts: Option<Vec<u8>>,
    /// The first two neighbours on a core of which the one behind has priority over the other.
    pub neighbours: Option<(Task, Task)>,
}

/// Where an old number stands.
#[derive(Clone, Debug, PartialEq, Eq)]
pub struct Stands {
    pub number: u8,
    pub positions: Vec<u8>,
}

impl Stands {
    fn of(tasks: &[Task], number: u8) -> Stands {
        let own = tasks.iter().filter(|task| task.number == number);
        let positions = own.map(|task| task.position).collect();
        Stands { number, positions }
    }

    /// `2 stands twice, at positions 3 and 4`.
    fn words(&self) -> String {
        let Stands { number, positions } = self;
        let at = joined(positions);
        match positions.len() {
            0 | 1 => format!("{number} stands at position {at}"),
            2 => format!("{number} stands twice, at positions {at}"),
            times => format!("{number} stands {times} times, at positions {at}"),
        }
    }
}

impl Disorder {
    fn is_none(&self) -> bool {
        *self == Disorder::default()
    }

    /// The records that are not in order, by their offsets.
    pub fn named(&self, layout: Layout) -> Vec<usize> {
        let numbers = [&self.repeated, &self.beyond].into_iter().flatten();
        let numbers = numbers.flat_map(|stands| stands.positions.clone());
        let neighbours = self.neighbours.iter();
        let neighbours = neighbours.flat_map(|(front, back)| [front.position, back.position]);
        let cores = (0..layout.cores).filter(|_| self.counts.is_some());
        numbers
            .chain(neighbours)
            .map(|position| layout.task_offset(position))
            .chain(cores.map(|core| layout.core_offset(core)))
            .collect()
    }

    /// What is not in order, in sentences.
    pub fn words(&self, layout: Layout) -> String {
        let sentences = [
            self.numbers(layout),
            self.counts
                .as_ref()
                .map(|counts| add_up(counts, layout.tasks)),
            self.neighbours
                .map(|(front, back)| out_of_order(&front, &back)),
        ];
        let sentences: Vec<String> = sentences.into_iter().flatten().collect();
        sentences.join(" ")
    }

    fn numbers(&self, layout: Layout) -> Option<String> {
        let repeated = self.repeated.as_ref().map(Stands::words);
        let beyond = self.beyond.as_ref().map(Stands::words);
        let missing = match self.missing.as_slice() {
            [] => None,
            [one] => Some(format!("{one} is missing")),
            few if few.len() <= 4 => Some(format!("{} are missing", joined(few))),
            [first, more @ ..] => Some(format!("{first} and {} others are missing", more.len())),
        };
        let found: Vec<String> = [repeated, beyond, missing].into_iter().flatten().collect();
        let last = layout.tasks.saturating_sub(1);
        let all = match last {
            0 => "The old number of one task must be 0, but".to_owned(),
            _ => format!("The old numbers must be each of 0 to {last} once, but"),
        };
        (!found.is_empty()).then(|| format!("{all} {}.", found.join("; ")))
    }
}

/// What is not in order; none if all is.
pub fn disorder(fields: &Fields) -> Option<Disorder> {
    if !fields.layout.is_grouped() {
        return None;
    }
    let tasks: Vec<Task> = fields.tasks().collect();
    let count = fields.layout.tasks;
    let counts: Vec<u8> = fields.cores().filter_map(|core| core.count).collect();
    let sum: usize = counts.iter().copied().map(usize::from).sum();
    let add_up = sum == usize::from(count);
    let stands = |number: u8| Stands::of(&tasks, number);
    let wanted = || (0..count).map(stands);
    let found = Disorder {
        repeated: wanted().find(|stands| stands.positions.len() > 1),
        beyond: tasks
            .iter()
            .find(|task| task.number >= count)
            .map(|task| stands(task.number)),
        missing: wanted()
            .filter(|stands| stands.positions.is_empty())
            .map(|stands| stands.number)
            .collect(),
        counts: (!add_up).then_some(counts),
        neighbours: neighbours(&tasks).filter(|_| add_up),
    };
    (!found.is_none()).then_some(found)
}

fn neighbours(tasks: &[Task]) -> Option<(Task, Task)> {
    let mut pairs = tasks.iter().zip(tasks.iter().skip(1));
    let wrong = pairs.find(|(front, back)| {
        front.core == back.core && (front.period, front.number) > (back.period, back.number)
    });
    wrong.map(|(front, back)| (*front, *back))
}

fn add_up(counts: &[u8], tasks: u8) -> String {
    let sum: usize = counts.iter().copied().map(usize::from).sum();
    let tasks = counted(tasks.into(), "task");
    match counts {
        [] => format!("The sheet has {tasks}, but no cores."),
        [_] => format!("The sheet has {tasks}, but the task count of core 0 is {sum}."),
        _ => {
            let counts = joined(counts);
            format!("The sheet has {tasks}, but the task counts of the cores are {counts}, together {sum}.")
        }
    }
}

fn out_of_order(front: &Task, back: &Task) -> String {
    let core = front.core.unwrap_or(0);
    let rule = match front.period == back.period {
        true => "Of two tasks with equal periods the one with the lower number must stand first",
        false => "Of two tasks of a core the one with the shorter period must stand first",
    };
    let record = |task: &Task| {
        let Task {
            position,
            number,
            period,
            ..
        } = task;
        format!("position {position} has task {number} with period {period}")
    };
    format!(
        "{rule}, but on core {core} {} and {}.",
        record(front),
        record(back)
    )
}
