//! The fields of any bytes, read as a timing sheet as far as they go. Nothing here is a verdict: that is the library's.

use std::fmt;

/// Bytes of the header, of a task record and of a core record.
pub const HEADER_SIZE: usize = 8;
pub const TASK_SIZE: usize = 10;
pub const CORE_SIZE: usize = 8;

/// A version of the sheet.
#[derive(Clone, Copy, Debug, PartialEq, Eq)]
pub enum Version {
    /// 1: the task records stand by number, and name their cores.
    ByNumber,
    /// 2: they stand core by core, and have their old numbers with them.
    ByCore,
    /// 3: as version 1, with stroke lengths.
    Strokes,
}

impl Version {
    pub const ALL: [Version; 3] = [Version::ByNumber, Version::ByCore, Version::Strokes];

    pub fn number(self) -> u8 {
        match self {
            Version::ByNumber => 1,
            Version::ByCore => 2,
            Version::Strokes => 3,
        }
    }

    /// The version that the header of bytes names, if it is a known one.
    pub fn of(bytes: &[u8]) -> Option<Version> {
        let named = bytes.get(3..5)?;
        let mut all = Version::ALL.into_iter();
        all.find(|version| named == [version.number(), 0])
    }
}

/// How many records there are, and which version they are of.
#[derive(Clone, Copy, Debug, PartialEq, Eq)]
pub struct Layout {
    pub version: Version,
    pub tasks: u8,
    pub cores: u8,
}

impl Layout {
    /// Whether the task records stand core by core.
    pub fn is_grouped(self) -> bool {
        self.version == Version::ByCore
    }

    /// Whether the task records have stroke lengths.
    pub fn has_strokes(self) -> bool {
        self.version == Version::Strokes
    }

    pub fn task_offset(self, position: u8) -> usize {
        HEADER_SIZE + TASK_SIZE * usize::from(position)
    }

    pub fn core_offset(self, core: u8) -> usize {
        self.task_offset(self.tasks) + CORE_SIZE * usize::from(core)
    }

    /// The length of the whole sheet.
    pub fn length(self) -> usize {
        self.core_offset(self.cores)
    }

    /// The part that a byte belongs to, and which byte of this part it is.
    pub fn part(self, offset: usize) -> Option<(Part, usize)> {
        let record = |from: usize, size| {
            let past = offset - from;
            u8::try_from(past / size).map(|number| (number, past % size))
        };
        let tasks = self.task_offset(0)..self.core_offset(0);
        let cores = self.core_offset(0)..self.length();
        if offset < HEADER_SIZE {
            Some((Part::Header, offset))
        } else if tasks.contains(&offset) {
            let (task, byte) = record(tasks.start, TASK_SIZE).ok()?;
            Some((Part::Task(task), byte))
        } else if cores.contains(&offset) {
            let (core, byte) = record(cores.start, CORE_SIZE).ok()?;
            Some((Part::Core(core), byte))
        } else {
            None
        }
    }
}

/// A part of a sheet: its header, the task record at a position, or the record of a core.
#[derive(Clone, Copy, Debug, PartialEq, Eq)]
pub enum Part {
    Header,
    Task(u8),
    Core(u8),
}

/// A whole task record.
#[derive(Clone, Copy, Debug, PartialEq, Eq)]
pub struct Task {
    /// The place of the record, from 0.
    pub position: u8,
    /// The old number in version 2, else the position.
    pub number: u8,
    /// The core that the record names, be it there or not. In version 2 the one that the counts give, if they reach so far.
    pub core: Option<u8>,
    pub period: u16,
    pub budget: u16,
    /// The stroke length; 1 in versions 1 and 2.
    pub stroke: u8,
    pub factor: u32,
}

/// A whole core record.
#[derive(Clone, Copy, Debug, PartialEq, Eq)]
pub struct Core {
    pub number: u8,
    pub pivot: u16,
    /// The task count, of version 2 alone.
    pub count: Option<u8>,
    pub divisor: u32,
}

/// A fraction in lowest terms.
#[derive(Clone, Copy, Debug, PartialEq, Eq)]
pub struct Fraction {
    pub over: u64,
    pub under: u64,
}

impl Fraction {
    /// None over a zero.
    pub fn new(over: u64, under: u64) -> Option<Fraction> {
        let common = common_divisor(over, under);
        (under != 0).then(|| Fraction {
            over: over / common,
            under: under / common,
        })
    }

    pub fn whole_part(self) -> u64 {
        self.over / self.under
    }
}

impl fmt::Display for Fraction {
    fn fmt(&self, f: &mut fmt::Formatter<'_>) -> fmt::Result {
        match self.under {
            1 => write!(f, "{}", self.over),
            _ => write!(f, "{}/{}", self.over, self.under),
        }
    }
}

fn common_divisor(mut a: u64, mut b: u64) -> u64 {
    while b != 0 {
        (a, b) = (b, a % b);
    }
    a
}

/// What the tasks of a core add to its load, in order of priority. A core fits if for each task the sum up to it and its wait are together at
/// most the capacity.
#[derive(Clone, Debug, PartialEq, Eq)]
pub struct Load {
    pub core: Core,
    /// L, the factor of the last task.
    pub last: u32,
    pub shares: Vec<Share>,
    /// Q x L.
    pub capacity: u128,
}

/// What one task adds.
#[derive(Clone, Copy, Debug, PartialEq, Eq)]
pub struct Share {
    pub task: Task,
    /// L / M.
    pub times: u32,
    /// e x D x (L / M).
    pub work: u128,
    /// The work of this task and of those before it.
    pub sum: u128,
    /// B: the longest stroke of the tasks behind it, less 1; 0 if there are none.
    pub blocking: u8,
    /// B x D x (L / M).
    pub wait: u128,
}

impl Share {
    /// What the capacity must have room for.
    pub fn together(&self) -> u128 {
        self.sum + self.wait
    }
}

impl Load {
    pub fn sum(&self) -> u128 {
        self.shares.last().map_or(0, |share| share.sum)
    }

    /// The load in thousandths, rounded up; none where the capacity is 0.
    pub fn thousandths(&self) -> Option<u128> {
        (self.capacity != 0).then(|| (1000 * self.sum()).div_ceil(self.capacity))
    }

    /// The first by priority with which the sum and the wait are above the capacity.
    pub fn first_above(&self) -> Option<&Share> {
        let mut shares = self.shares.iter();
        shares.find(|share| share.together() > self.capacity)
    }
}

/// Bytes, read by a layout. What the bytes do not reach is none.
#[derive(Clone, Copy)]
pub struct Fields<'a> {
    pub bytes: &'a [u8],
    pub layout: Layout,
}

impl<'a> Fields<'a> {
    /// By the header of the bytes: version 1 where it names no known one, and no records where it does not say how many.
    pub fn new(bytes: &'a [u8]) -> Fields<'a> {
        let count = |at: usize| bytes.get(at).copied().unwrap_or(0);
        let layout = Layout {
            version: Version::of(bytes).unwrap_or(Version::ByNumber),
            tasks: count(5),
            cores: count(6),
        };
        Fields { bytes, layout }
    }

    pub fn mark(&self) -> Option<[u8; 3]> {
        self.bytes.first_chunk().copied()
    }

    pub fn version(&self) -> Option<u16> {
        self.two(3)
    }

    pub fn byte(&self, at: usize) -> Option<u8> {
        self.bytes.get(at).copied()
    }

    /// A number of two bytes.
    pub fn two(&self, at: usize) -> Option<u16> {
        let bytes = self.bytes.get(at..)?.first_chunk()?;
        Some(u16::from_le_bytes(*bytes))
    }

    /// A number of four bytes.
    pub fn four(&self, at: usize) -> Option<u32> {
        let bytes = self.bytes.get(at..)?.first_chunk()?;
        Some(u32::from_le_bytes(*bytes))
    }

    /// The task record at a position.
    pub fn task(&self, position: u8) -> Option<Task> {
        let at = self.layout.task_offset(position);
        let (named, fifth) = (self.byte(at + 4)?, self.byte(at + 5)?);
        let (number, core) = match self.layout.is_grouped() {
            false => (position, Some(named)),
            true => (named, self.core_by_count(position)),
        };
        (position < self.layout.tasks).then_some(Task {
            position,
            number,
            core,
            period: self.two(at)?,
            budget: self.two(at + 2)?,
            stroke: if self.layout.has_strokes() { fifth } else { 1 },
            factor: self.four(at + 6)?,
        })
    }

    /// The core of a position of version 2.
    fn core_by_count(&self, position: u8) -> Option<u8> {
        let mut end = 0;
        for core in 0..self.layout.cores {
            end += usize::from(self.byte(self.layout.core_offset(core) + 2)?);
            if usize::from(position) < end {
                return Some(core);
            }
        }
        None
    }

    pub fn core(&self, number: u8) -> Option<Core> {
        let at = self.layout.core_offset(number);
        let count = self.byte(at + 2)?;
        (number < self.layout.cores).then_some(Core {
            number,
            pivot: self.two(at)?,
            count: self.layout.is_grouped().then_some(count),
            divisor: self.four(at + 4)?,
        })
    }

    /// The whole task records.
    pub fn tasks(&self) -> impl Iterator<Item = Task> + use<'a> {
        let fields = *self;
        (0..fields.layout.tasks).filter_map(move |position| fields.task(position))
    }

    /// The whole core records.
    pub fn cores(&self) -> impl Iterator<Item = Core> + use<'a> {
        let fields = *self;
        (0..fields.layout.cores).filter_map(move |number| fields.core(number))
    }

    /// The tasks of a core in order of priority.
    pub fn by_priority(&self, core: u8) -> Vec<Task> {
        let mut tasks: Vec<Task> = self
            .tasks()
            .filter(|task| task.core == Some(core))
            .collect();
        tasks.sort_by_key(|task| (task.period, task.number, task.position));
        tasks
    }

    /// T = Q x M / D, the accelerated period.
    pub fn accelerated(&self, task: &Task) -> Option<Fraction> {
        let core = self.core(task.core?)?;
        let product = u64::from(core.pivot) * u64::from(task.factor);
        Fraction::new(product, core.divisor.into())
    }

    /// The whole part of T.
    pub fn within(&self, task: &Task) -> Option<u64> {
        Some(self.accelerated(task)?.whole_part())
    }

    /// The load of a core that has tasks, where each factor goes into the last one a whole number of times.
    pub fn load(&self, core: u8) -> Option<Load> {
        let tasks = self.by_priority(core);
        let core = self.core(core)?;
        let last = tasks.last()?.factor;
        let mut shares = Vec::new();
        let mut sum = 0;
        for (place, &task) in tasks.iter().enumerate() {
            let times = last.checked_div(task.factor)?;
            if last % task.factor != 0 {
                return None;
            }
            let behind = tasks[place + 1..].iter();
            let blocking = behind.map(|task| task.stroke.saturating_sub(1)).max();
            let blocking = blocking.unwrap_or(0);
            // at most 80 bits each, and there are at most 255 of them
            let ticks = u128::from(core.divisor) * u128::from(times);
            let work = u128::from(task.budget) * ticks;
            sum += work;
            shares.push(Share {
                task,
                times,
                work,
                sum,
                blocking,
                wait: u128::from(blocking) * ticks,
            });
        }
        Some(Load {
            core,
            last,
            shares,
            capacity: u128::from(core.pivot) * u128::from(last),
        })
    }
}

#[cfg(test)]
mod tests {
    use super::*;
    use crate::explain::samples::{Rng, FULL, GROUPED, STROKED};

    #[test]
    fn the_fields_of_every_version() {
        let fields = Fields::new(&FULL);
        assert_eq!((fields.mark(), fields.version()), (Some(*b"TSH"), Some(1)));
        assert_eq!(fields.layout.length(), 36);
        let task = fields.task(1).unwrap();
        assert_eq!((task.number, task.core), (1, Some(0)));
        assert_eq!((task.period, task.budget, task.factor), (9, 7, 2));
        assert_eq!(task.stroke, 1);
        assert_eq!((fields.task(2), fields.core(1)), (None, None));
        let core = fields.core(0).unwrap();
        assert_eq!((core.pivot, core.count, core.divisor), (9, None, 2));

        let fields = Fields::new(&GROUPED);
        let tasks = fields
            .tasks()
            .map(|task| (task.position, task.number, task.core));
        let expected = [(0, 3, 0), (1, 1, 0), (2, 4, 0), (3, 2, 1), (4, 0, 1)];
        assert!(tasks.eq(expected.map(|(position, number, core)| (position, number, Some(core)))));
        assert!(fields.cores().map(|core| core.count).eq([Some(3), Some(2)]));
        assert_eq!(Fields::new(&GROUPED[..60]).tasks().count(), 5);
        assert_eq!(Fields::new(&GROUPED[..57]).tasks().count(), 4);
        assert!(fields.tasks().all(|task| task.stroke == 1));

        let fields = Fields::new(&STROKED);
        let tasks = fields
            .tasks()
            .map(|task| (task.number, task.core, task.stroke));
        assert!(tasks.eq([(0, Some(0), 1), (1, Some(0), 4)]));
        assert_eq!(fields.core(0).unwrap().count, None);
        let named = |version: [u8; 2]| Version::of(&[b'T', b'S', b'H', version[0], version[1]]);
        let versions = [[1, 0], [2, 0], [3, 0], [0, 0], [4, 0], [3, 1]].map(named);
        assert_eq!(versions[..3], Version::ALL.map(Some));
        assert_eq!(versions[3..], [None; 3]);
    }

    #[test]
    fn figures_of_tasks_and_cores() {
        let fields = Fields::new(&FULL);
        let figures = fields.tasks().map(|task| {
            let accelerated = fields.accelerated(&task).unwrap();
            (accelerated.to_string(), fields.within(&task))
        });
        assert!(figures.eq([("9/2".to_owned(), Some(4)), ("9".to_owned(), Some(9))]));
        let load = fields.load(0).unwrap();
        assert_eq!(
            (load.sum(), load.capacity, load.thousandths()),
            (18, 18, Some(1000))
        );
        assert_eq!(load.first_above(), None);
        let fields = Fields::new(&GROUPED);
        let order = |core| fields.by_priority(core).into_iter().map(|task| task.number);
        assert!(order(0).eq([3, 1, 4]) && order(1).eq([2, 0]));
        assert_eq!(fields.load(0).unwrap().thousandths(), Some(625));
    }

    #[test]
    fn strokes_make_those_above_wait() {
        let load = Fields::new(&STROKED).load(0).unwrap();
        assert_eq!(
            (load.sum(), load.capacity, load.thousandths()),
            (18, 18, Some(1000))
        );
        let waits = load.shares.iter().map(|share| (share.blocking, share.wait));
        assert!(waits.eq([(3, 12), (0, 0)]));
        assert_eq!(load.first_above(), None);
        let mut longer = STROKED;
        longer[23] = 5;
        let load = Fields::new(&longer).load(0).unwrap();
        let first = load.first_above().unwrap();
        assert_eq!((first.task.number, first.together()), (0, 20));
    }

    #[test]
    fn every_byte_belongs_to_its_part() {
        let layout = Fields::new(&GROUPED).layout;
        assert_eq!(layout.part(7), Some((Part::Header, 7)));
        assert_eq!(layout.part(8), Some((Part::Task(0), 0)));
        assert_eq!(layout.part(57), Some((Part::Task(4), 9)));
        assert_eq!(layout.part(58), Some((Part::Core(0), 0)));
        assert_eq!(layout.part(73), Some((Part::Core(1), 7)));
        assert_eq!(layout.part(74), None);
    }

    /// Reads all that there is of a number.
    fn read(fields: &Fields, number: u8) {
        let task = fields.task(number);
        let _ = task.and_then(|task| fields.within(&task));
        let load = fields.load(number);
        let _ = load.and_then(|load| load.thousandths());
        let _ = fields.layout.part(fields.layout.core_offset(number));
    }

    #[test]
    fn any_bytes_have_fields() {
        let mut rng = Rng(2);
        for _ in 0..300 {
            let bytes = rng.noise();
            (0..=255).for_each(|number| read(&Fields::new(&bytes), number));
        }
    }

    #[test]
    fn the_largest_figures_do_not_overflow() {
        let mut most = vec![255; 8 + 10 * 255 + 8 * 255];
        (0..255).for_each(|task| most[8 + 10 * task + 4] = 0);
        let fields = Fields::new(&most);
        assert_eq!((fields.tasks().count(), fields.cores().count()), (255, 255));
        let load = fields.load(0).unwrap();
        let (two, four) = (u128::from(u16::MAX), u128::from(u32::MAX));
        assert_eq!((load.sum(), load.capacity), (255 * two * four, two * four));
        assert_eq!(load.thousandths(), Some(255_000));
        let within = fields.tasks().map(|task| fields.within(&task));
        assert!(within.eq([Some(65_535); 255]));
    }
}
