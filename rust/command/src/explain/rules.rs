//! The numbers by which a refused sheet breaks the rule that the library names, as data.

use homvaits::{Place, Refusal, Word};

use super::order::{self, Disorder};
use crate::fields::{Core, Fields, Layout, Load, Part, Task, HEADER_SIZE};

/// What the rules allow at most.
pub const MOST_TASKS: u8 = 64;
pub const MOST_CORES: u8 = 8;
pub const LONGEST_PERIOD: u16 = 60_000;
pub const LARGEST_FACTOR: u32 = 120_000;

/// The numbers that break a rule.
#[derive(Clone, Debug, PartialEq, Eq)]
pub enum Fault {
    /// So many bytes and no more.
    Stub { found: usize },
    /// Other bytes than T S H.
    Mark { found: [u8; 3] },
    /// Another version than 1, 2 and 3.
    Version { found: u16 },
    /// More tasks or cores than there may be.
    Count { layout: Layout },
    /// Another length than that of the layout.
    Length { layout: Layout, found: usize },
    /// A spare byte that is not 0: a byte of a part.
    Spare {
        offset: usize,
        value: u8,
        part: Part,
        byte: usize,
    },
    /// A period out of range.
    Period(Task),
    /// A budget that is 0 or above the period.
    Budget(Task),
    /// A stroke length that is 0 or above the budget.
    Stroke(Task),
    /// A version 2 sheet that is not in order.
    Order(Disorder),
    /// A task on a core that is not there.
    Core { task: Task, core: u8, cores: u8 },
    /// A core without tasks, and how many tasks each core has.
    Bare { core: u8, counts: Vec<usize> },
    /// A factor out of range.
    Factor(Task),
    /// A pivot or divisor out of range.
    Figures(Core),
    /// Q x M above p x D.
    Stretch(Stretch),
    /// A core's tasks in order of priority: from 1 on, the one at `at` has a factor that is no multiple of the one before it.
    Chain {
        core: u8,
        tasks: Vec<Task>,
        at: usize,
    },
    /// A load above one, or a task whose sum and wait are above the capacity.
    Overload(Load),
}

/// A task whose accelerated period is longer than its period.
#[derive(Clone, Copy, Debug, PartialEq, Eq)]
pub struct Stretch {
    pub task: Task,
    pub core: Core,
    /// Q x M.
    pub accelerated: u64,
    /// p x D.
    pub period: u64,
}

/// The numbers that break the rule at the place that the library names; none if they do not break it.
pub fn fault(fields: &Fields, refusal: Refusal) -> Option<Fault> {
    let layout = fields.layout;
    match (refusal.word, refusal.place) {
        (Word::Stub | Word::Mark | Word::Version, Place::Whole) => front(fields, refusal.word),
        (Word::Count, Place::Whole) => {
            let above = layout.tasks > MOST_TASKS || layout.cores > MOST_CORES;
            above.then_some(Fault::Count { layout })
        }
        (Word::Length, Place::Whole) => {
            let found = fields.bytes.len();
            (found != layout.length()).then_some(Fault::Length { layout, found })
        }
        (Word::Spare, Place::Offset(offset)) => spare(fields, offset.into()),
        (Word::Order, Place::Whole) => order::disorder(fields).map(Fault::Order),
        (word, Place::Task(position)) => at_task(fields, word, fields.task(position)?),
        (word, Place::Core(core)) => at_core(fields, word, core),
        _ => None,
    }
}

fn front(fields: &Fields, word: Word) -> Option<Fault> {
    let found = fields.bytes.len();
    match word {
        Word::Stub => (found < HEADER_SIZE).then_some(Fault::Stub { found }),
        Word::Mark => {
            let found = fields.mark()?;
            (found != *b"TSH").then_some(Fault::Mark { found })
        }
        _ => {
            let found = fields.version()?;
            (!(1..=3).contains(&found)).then_some(Fault::Version { found })
        }
    }
}

fn spare(fields: &Fields, offset: usize) -> Option<Fault> {
    let value = fields.byte(offset)?;
    let (part, byte) = fields.layout.part(offset)?;
    let spare = match part {
        Part::Header => byte == 7,
        Part::Task(_) => byte == 5 && !fields.layout.has_strokes(),
        Part::Core(_) => byte == 3 || byte == 2 && !fields.layout.is_grouped(),
    };
    (spare && value != 0).then_some(Fault::Spare {
        offset,
        value,
        part,
        byte,
    })
}

fn at_task(fields: &Fields, word: Word, task: Task) -> Option<Fault> {
    let cores = fields.layout.cores;
    match word {
        Word::Period => {
            let wrong = !(1..=LONGEST_PERIOD).contains(&task.period);
            wrong.then_some(Fault::Period(task))
        }
        Word::Budget => {
            let wrong = !(1..=task.period).contains(&task.budget);
            wrong.then_some(Fault::Budget(task))
        }
        Word::Stroke => {
            let wrong = !(1..=task.budget).contains(&task.stroke.into());
            (wrong && fields.layout.has_strokes()).then_some(Fault::Stroke(task))
        }
        Word::Core => {
            let core = task.core?;
            (core >= cores).then_some(Fault::Core { task, core, cores })
        }
        Word::Factor => {
            let wrong = !(1..=LARGEST_FACTOR).contains(&task.factor);
            wrong.then_some(Fault::Factor(task))
        }
        Word::Stretch => stretch(fields, task),
        Word::Chain => chain(fields, task),
        _ => None,
    }
}

fn stretch(fields: &Fields, task: Task) -> Option<Fault> {
    let core = fields.core(task.core?)?;
    let accelerated = u64::from(core.pivot) * u64::from(task.factor);
    let period = u64::from(task.period) * u64::from(core.divisor);
    (accelerated > period).then_some(Fault::Stretch(Stretch {
        task,
        core,
        accelerated,
        period,
    }))
}

fn chain(fields: &Fields, task: Task) -> Option<Fault> {
    let core = task.core?;
    let tasks = fields.by_priority(core);
    let at = tasks.iter().position(|other| *other == task)?;
    let before = tasks.get(at.checked_sub(1)?)?;
    let multiple = task.factor.checked_rem(before.factor) == Some(0);
    (!multiple).then_some(Fault::Chain { core, tasks, at })
}

fn at_core(fields: &Fields, word: Word, core: u8) -> Option<Fault> {
    let record = fields.core(core)?;
    match word {
        Word::Bare => {
            let count = |core: u8| {
                fields
                    .tasks()
                    .filter(|task| task.core == Some(core))
                    .count()
            };
            let counts: Vec<usize> = (0..fields.layout.cores).map(count).collect();
            let bare = counts.get(usize::from(core)) == Some(&0);
            bare.then_some(Fault::Bare { core, counts })
        }
        Word::Factor => {
            let pivot = (1..=LONGEST_PERIOD).contains(&record.pivot);
            let divisor = (1..=LARGEST_FACTOR).contains(&record.divisor);
            (!pivot || !divisor).then_some(Fault::Figures(record))
        }
        Word::Overload => {
            let load = fields.load(core)?;
            load.first_above()?;
            Some(Fault::Overload(load))
        }
        _ => None,
    }
}

/// The bytes that a refusal names, by their offsets: with the numbers that break the rule, or by its place alone.
pub fn named(layout: Layout, refusal: Refusal, fault: Option<&Fault>) -> Vec<usize> {
    match (refusal.place, fault) {
        (Place::Task(position), _) => vec![layout.task_offset(position)],
        (Place::Core(core), _) => vec![layout.core_offset(core)],
        (Place::Offset(offset), _) => vec![offset.into()],
        (_, Some(Fault::Mark { .. })) => vec![0],
        (_, Some(Fault::Version { .. })) => vec![3],
        (_, Some(Fault::Count { layout })) => {
            let counts = [
                (5, layout.tasks > MOST_TASKS),
                (6, layout.cores > MOST_CORES),
            ];
            let above = counts.iter().filter(|(_, above)| *above);
            above.map(|(offset, _)| *offset).collect()
        }
        (_, Some(Fault::Order(disorder))) => disorder.named(layout),
        _ => Vec::new(),
    }
}

#[cfg(test)]
mod tests {
    use super::super::order::Stands;
    use super::super::samples::{chained, changed, Rng, FULL, GROUPED, STROKED};
    use super::*;
    use homvaits::check;

    /// Whether the numbers break the rule, worked out from them alone.
    fn breaks(fault: &Fault) -> bool {
        match fault {
            Fault::Stub { found } => *found < 8,
            Fault::Mark { found } => found != b"TSH",
            Fault::Version { found } => ![1, 2, 3].contains(found),
            Fault::Count { layout } => layout.tasks > 64 || layout.cores > 8,
            Fault::Length { layout, found } => {
                *found != 8 + 10 * usize::from(layout.tasks) + 8 * usize::from(layout.cores)
            }
            Fault::Spare { value, .. } => *value != 0,
            Fault::Period(task) => task.period == 0 || task.period > 60_000,
            Fault::Budget(task) => task.budget == 0 || task.budget > task.period,
            Fault::Stroke(task) => task.stroke == 0 || u16::from(task.stroke) > task.budget,
            Fault::Order(disorder) => disordered(disorder),
            Fault::Core { core, cores, .. } => core >= cores,
            Fault::Bare { core, counts } => counts[usize::from(*core)] == 0,
            Fault::Factor(task) => task.factor == 0 || task.factor > 120_000,
            Fault::Figures(core) => {
                let (pivot, divisor) = (core.pivot, core.divisor);
                pivot == 0 || pivot > 60_000 || divisor == 0 || divisor > 120_000
            }
            Fault::Stretch(Stretch { task, core, .. }) => {
                let pivot = u64::from(core.pivot) * u64::from(task.factor);
                pivot > u64::from(task.period) * u64::from(core.divisor)
            }
            Fault::Chain { tasks, at, .. } => tasks[*at].factor % tasks[at - 1].factor != 0,
            Fault::Overload(load) => {
                let tasks: Vec<Task> = load.shares.iter().map(|share| share.task).collect();
                overloaded(&tasks, &load.core)
            }
        }
    }

    /// For one of the tasks e / T, summed up to it, and B / T of its own T are above one, where T = Q x M / D.
    fn overloaded(tasks: &[Task], core: &Core) -> bool {
        let divisor = u64::from(core.divisor);
        let above = |place: usize| {
            let own = u64::from(tasks[place].factor);
            let work = |task: &Task| {
                let ticks = u64::from(task.budget) * divisor * own;
                assert_eq!(ticks % u64::from(task.factor), 0);
                ticks / u64::from(task.factor)
            };
            let sum: u64 = tasks[..=place].iter().map(work).sum();
            let below = tasks[place + 1..].iter().map(|task| task.stroke - 1);
            let wait = u64::from(below.max().unwrap_or(0)) * divisor;
            sum + wait > u64::from(core.pivot) * own
        };
        (0..tasks.len()).any(above)
    }

    fn disordered(disorder: &Disorder) -> bool {
        let repeated = disorder.repeated.as_ref();
        let repeated = repeated.is_some_and(|stands| stands.positions.len() > 1);
        let numbers = repeated || disorder.beyond.is_some();
        assert_eq!(numbers, !disorder.missing.is_empty());
        let neighbours = disorder.neighbours.is_some_and(|(front, back)| {
            assert_eq!((front.core, front.position + 1), (back.core, back.position));
            front.period > back.period || front.period == back.period && front.number > back.number
        });
        numbers || neighbours || disorder.counts.is_some()
    }

    /// The numbers that break the rule which the library names.
    #[track_caller]
    fn found(bytes: &[u8], number: u8, place: u64) -> Fault {
        let refusal = check(bytes).unwrap_err();
        assert_eq!((refusal.number(), refusal.place.number()), (number, place));
        let fault = fault(&Fields::new(bytes), refusal).expect("the numbers break the rule");
        assert!(breaks(&fault), "{fault:?}");
        fault
    }

    #[test]
    fn the_front() {
        assert_eq!(found(&FULL[..7], 1, 0), Fault::Stub { found: 7 });
        assert_eq!(found(&[], 1, 0), Fault::Stub { found: 0 });
        let mark = changed(&FULL, &[(0, b't')]);
        assert_eq!(found(&mark, 2, 0), Fault::Mark { found: *b"tSH" });
        let version = changed(&FULL, &[(3, 0), (4, 1)]);
        assert_eq!(found(&version, 3, 0), Fault::Version { found: 256 });
        let version = changed(&FULL, &[(3, 4)]);
        assert_eq!(found(&version, 3, 0), Fault::Version { found: 4 });
        let counts = |bytes: &[u8]| match found(bytes, 4, 0) {
            Fault::Count { layout } => (layout.tasks, layout.cores),
            other => panic!("{other:?}"),
        };
        assert_eq!(counts(&changed(&FULL, &[(5, 65)])), (65, 1));
        assert_eq!(counts(&changed(&FULL, &[(6, 9)])), (2, 9));
        let length = |bytes: &[u8]| match found(bytes, 5, 0) {
            Fault::Length { layout, found } => (layout.length(), found),
            other => panic!("{other:?}"),
        };
        assert_eq!(length(&FULL[..35]), (36, 35));
        assert_eq!(length(&[&FULL[..], &[0; 700]].concat()), (36, 736));
    }

    #[test]
    fn spare_bytes() {
        for (bytes, offset, part, byte) in [
            (&FULL[..], 7, Part::Header, 7),
            (&FULL, 23, Part::Task(1), 5),
            (&FULL, 30, Part::Core(0), 2),
            (&FULL, 31, Part::Core(0), 3),
            (&GROUPED, 53, Part::Task(4), 5),
            (&GROUPED, 69, Part::Core(1), 3),
            (&STROKED, 7, Part::Header, 7),
            (&STROKED, 30, Part::Core(0), 2),
            (&STROKED, 31, Part::Core(0), 3),
        ] {
            let fault = found(&changed(bytes, &[(offset, 0xA5)]), 6, offset as u64);
            let expected = Fault::Spare {
                offset,
                value: 0xA5,
                part,
                byte,
            };
            assert_eq!(fault, expected);
        }
    }

    #[test]
    fn periods() {
        for period in [[0, 0], [0x61, 0xEA]] {
            let bytes = changed(&FULL, &[(18, period[0]), (19, period[1])]);
            let fault = found(&bytes, 7, 1);
            assert!(matches!(fault, Fault::Period(task) if task.position == 1));
        }
        let fault = found(&changed(&GROUPED, &[(28, 0)]), 7, 2);
        assert!(matches!(fault, Fault::Period(task) if (task.position, task.number) == (2, 4)));
    }

    #[test]
    fn budgets() {
        for budget in [0, 10] {
            let fault = found(&changed(&FULL, &[(20, budget)]), 8, 1);
            assert!(matches!(fault, Fault::Budget(task) if task.budget == budget.into()));
        }
    }

    #[test]
    fn strokes() {
        for stroke in [0, 8, 255] {
            let fault = found(&changed(&STROKED, &[(23, stroke)]), 25, 1);
            assert!(matches!(fault, Fault::Stroke(task) if task.stroke == stroke));
        }
        found(&changed(&STROKED, &[(13, 0), (23, 0)]), 25, 0);
        let Fault::Overload(load) = found(&changed(&STROKED, &[(23, 5)]), 14, 64) else {
            panic!("another fault");
        };
        let first = load.first_above().unwrap();
        assert_eq!((first.task.number, first.blocking), (0, 4));
        assert_eq!((first.sum, first.wait, load.capacity), (4, 16, 18));
        assert_eq!((load.sum(), load.thousandths()), (18, Some(1000)));
    }

    #[test]
    fn cores() {
        let cores = |bytes: &[u8]| match found(bytes, 9, 0) {
            Fault::Core { core, cores, .. } => (core, cores),
            other => panic!("{other:?}"),
        };
        assert_eq!(cores(&changed(&FULL, &[(12, 1)])), (1, 1));
        assert_eq!(cores(&changed(&FULL[..28], &[(6, 0)])), (0, 0));
        let bare = changed(&[&FULL[..], &FULL[28..]].concat(), &[(6, 2)]);
        let (core, counts) = (1, vec![2, 0]);
        assert_eq!(found(&bare, 10, 65), Fault::Bare { core, counts });
        let no_task = changed(&[&FULL[..8], &FULL[28..]].concat(), &[(5, 0)]);
        let (core, counts) = (0, vec![0]);
        assert_eq!(found(&no_task, 10, 64), Fault::Bare { core, counts });
        let grouped = changed(&GROUPED, &[(38, 9), (48, 10), (60, 5), (68, 0)]);
        let (core, counts) = (1, vec![5, 0]);
        assert_eq!(found(&grouped, 10, 65), Fault::Bare { core, counts });
    }

    #[test]
    fn factors_out_of_range() {
        for factor in [[0, 0], [1, 3]] {
            let bytes = changed(&FULL, &[(14, factor[0]), (16, factor[1])]);
            assert!(matches!(found(&bytes, 11, 0), Fault::Factor(task) if task.position == 0));
        }
    }

    #[test]
    fn pivots_and_divisors_out_of_range() {
        for (at, byte) in [(28, 0), (29, 0xFF), (32, 0), (34, 2)] {
            let fault = found(&changed(&FULL, &[(at, byte)]), 11, 64);
            assert!(matches!(fault, Fault::Figures(_)));
        }
    }

    #[test]
    fn figures_that_show_nothing() {
        let products = |bytes: &[u8], task| match found(bytes, 12, task) {
            Fault::Stretch(stretch) => (stretch.accelerated, stretch.period),
            other => panic!("{other:?}"),
        };
        assert_eq!(products(&changed(&FULL, &[(8, 4)]), 0), (9, 8));
        assert_eq!(products(&changed(&FULL, &[(24, 3)]), 1), (27, 18));
        assert_eq!(products(&changed(&GROUPED, &[(44, 2)]), 3), (18, 10));
        let Fault::Chain { core, tasks, at } = found(&chained(3), 13, 2) else {
            panic!("another fault");
        };
        let factors: Vec<u32> = tasks.iter().map(|task| task.factor).collect();
        assert_eq!((core, factors, at), (0, vec![1, 2, 3], 2));
    }

    #[test]
    fn loads() {
        let load = |bytes: &[u8], place| match found(bytes, 14, place) {
            Fault::Overload(load) => (load.sum(), load.capacity, load.thousandths()),
            other => panic!("{other:?}"),
        };
        assert_eq!(load(&changed(&FULL, &[(20, 8)]), 64), (20, 18, Some(1112)));
        assert_eq!(
            load(&changed(&GROUPED, &[(50, 8)]), 65),
            (20, 18, Some(1112))
        );
        assert_eq!(
            load(&changed(&chained(4), &[(30, 7)]), 64),
            (13, 12, Some(1084))
        );
    }

    #[test]
    fn the_order_of_version_2() {
        let order = |changes: &[(usize, u8)]| match found(&changed(&GROUPED, changes), 23, 0) {
            Fault::Order(disorder) => disorder,
            other => panic!("{other:?}"),
        };
        let twice = order(&[(52, 2)]);
        let stands =
            |stands: Option<Stands>| stands.map(|stands| (stands.number, stands.positions));
        let often = stands(twice.repeated);
        assert_eq!((often, twice.missing), (Some((2, vec![3, 4])), vec![0]));
        let beyond = order(&[(12, 99)]);
        let at = stands(beyond.beyond);
        assert_eq!((at, beyond.missing), (Some((99, vec![0])), vec![3]));
        let often = stands(order(&[(32, 2), (52, 2)]).repeated);
        assert_eq!(often, Some((2, vec![2, 3, 4])));
        let counts = order(&[(68, 3)]);
        assert_eq!((counts.counts, counts.neighbours), (Some(vec![3, 3]), None));
        for (changes, pair) in [
            ([(22, 4), (32, 1)], (1, 2)), // numbers exchanged
            ([(28, 7), (29, 0)], (1, 2)), // 7 behind 8
            ([(60, 5), (68, 0)], (2, 3)), // counts 5 and 0
        ] {
            let found = order(&changes).neighbours;
            assert_eq!(found.map(|(a, b)| (a.position, b.position)), Some(pair));
        }
        let no_core = changed(&GROUPED[..58], &[(6, 0)]);
        let Fault::Order(disorder) = found(&no_core, 23, 0) else {
            panic!("another fault");
        };
        assert_eq!(disorder.counts, Some(Vec::new()));
    }

    /// The rules in the order of the check, each with its places in their order.
    fn places(fields: &Fields) -> Vec<Refusal> {
        let layout = fields.layout;
        let tasks: Vec<Place> = (0..layout.tasks).map(Place::Task).collect();
        let cores: Vec<Place> = (0..layout.cores).map(Place::Core).collect();
        let bytes: Vec<Place> = (0..fields.bytes.len() as u16).map(Place::Offset).collect();
        let by_priority = (0..layout.cores).flat_map(|core| fields.by_priority(core));
        let chain: Vec<Place> = by_priority.map(|task| Place::Task(task.position)).collect();
        let both = [&tasks[..], &cores].concat();
        let whole = vec![Place::Whole];
        let rules = [
            (Word::Stub, &whole),
            (Word::Mark, &whole),
            (Word::Version, &whole),
            (Word::Count, &whole),
            (Word::Length, &whole),
            (Word::Spare, &bytes),
            (Word::Period, &tasks),
            (Word::Budget, &tasks),
            (Word::Stroke, &tasks),
            (Word::Order, &whole),
            (Word::Core, &tasks),
            (Word::Bare, &cores),
            (Word::Factor, &both),
            (Word::Stretch, &tasks),
            (Word::Chain, &chain),
            (Word::Overload, &cores),
        ];
        let all = rules
            .iter()
            .flat_map(|(word, places)| places.iter().map(|&place| Refusal { word: *word, place }));
        all.collect()
    }

    /// The first rule and place that the numbers break.
    fn first(bytes: &[u8]) -> Option<Refusal> {
        let fields = Fields::new(bytes);
        let places = places(&fields);
        places
            .into_iter()
            .find(|&refusal| fault(&fields, refusal).is_some())
    }

    #[test]
    fn the_numbers_break_the_rule_that_the_library_names_and_none_before_it() {
        let mut rng = Rng(1);
        let mut seen = [0; 26];
        for turn in 0..6000 {
            let bytes = match turn % 10 {
                0 => rng.sheet(),
                1 => rng.noise(),
                _ => rng.damaged(),
            };
            let verdict = check(&bytes).err();
            assert_eq!(first(&bytes), verdict, "{bytes:?}");
            if let Some(refusal) = verdict {
                let fault = fault(&Fields::new(&bytes), refusal).unwrap();
                assert!(breaks(&fault), "{fault:?}");
            }
            seen[verdict.map_or(0, |refusal| usize::from(refusal.number()))] += 1;
        }
        let never = |number: &usize| seen[*number] == 0;
        assert!((0..26).filter(never).eq((15..=22).chain([24])), "{seen:?}");
    }

    #[test]
    fn a_refusal_of_another_library_is_not_explained() {
        let fields = Fields::new(&FULL);
        for (word, place) in [
            (Word::Other(99), Place::Whole),
            (Word::Late, Place::Task(0)),
            (Word::Mark, Place::Whole),
            (Word::Mark, Place::Task(63)),
            (Word::Overload, Place::Core(0)),
            (Word::Overload, Place::Core(7)),
            (Word::Spare, Place::Offset(60_000)),
            (Word::Chain, Place::Other(80)),
        ] {
            assert_eq!(fault(&fields, Refusal { word, place }), None);
        }
    }
}
