//! Sheets byte by byte, as in sections 2, 10, 12 and 14 of docs/SHEET.md.

use super::Rng;

#[derive(Clone, Copy, Debug, PartialEq, Eq)]
pub struct Task {
    pub period: u16,
    pub budget: u16,
    pub core: u8,
    /// The stroke length, which version 3 alone writes.
    pub stroke: u8,
    pub factor: u32,
}

#[derive(Clone, Copy, Debug, PartialEq, Eq)]
pub struct CoreRecord {
    pub pivot: u16,
    pub divisor: u32,
}

#[derive(Clone, Debug, Default)]
pub struct Sheet {
    pub tasks: Vec<Task>,
    pub cores: Vec<CoreRecord>,
}

pub const fn task(period: u16, budget: u16, core: u8, factor: u32) -> Task {
    Task {
        period,
        budget,
        core,
        stroke: 1,
        factor,
    }
}

pub const fn core(pivot: u16, divisor: u32) -> CoreRecord {
    CoreRecord { pivot, divisor }
}

pub fn sheet(tasks: &[Task], cores: &[CoreRecord]) -> Sheet {
    Sheet {
        tasks: tasks.to_vec(),
        cores: cores.to_vec(),
    }
}

/// The worked example: one tick every 5, seven ticks every 9.
pub fn full_core() -> Sheet {
    sheet(&[task(5, 1, 0, 1), task(9, 7, 0, 2)], &[core(9, 2)])
}

/// Tasks (3,1), (7,1), (13,6) with this last budget and this last factor.
pub fn three_tasks(budget: u16, factor: u32) -> Sheet {
    let tasks = [
        task(3, 1, 0, 1),
        task(7, 1, 0, 2),
        task(13, budget, 0, factor),
    ];
    sheet(&tasks, &[core(3, 1)])
}

/// The example of section 12: five tasks on two cores.
pub fn two_cores() -> Sheet {
    let tasks = [
        task(9, 7, 1, 2),
        task(8, 2, 0, 2),
        task(5, 1, 1, 1),
        task(4, 1, 0, 1),
        task(8, 1, 0, 2),
    ];
    sheet(&tasks, &[core(4, 1), core(9, 2)])
}

/// The example of section 14: the worked example with strokes of 1 tick and of so many.
pub fn strokes_of(ticks: u8) -> Sheet {
    full_core().with_strokes(&[1, ticks])
}

/// 64 tasks, eight on each of eight cores: the longest sheet.
pub fn longest() -> Sheet {
    let tasks: Vec<Task> = (0..64).map(|i| task(8, 1, i / 8, 1)).collect();
    sheet(&tasks, &[core(8, 1); 8])
}

impl Sheet {
    /// The sheet of these bytes, which are a good sheet of version 1.
    pub fn read(bytes: &[u8]) -> Sheet {
        let half = |at: usize| u16::from_le_bytes([bytes[at], bytes[at + 1]]);
        let whole = |at: usize| u32::from(half(at)) + 65_536 * u32::from(half(at + 2));
        assert_eq!(&bytes[..5], b"TSH\x01\x00");
        let tasks = (0..usize::from(bytes[5])).map(task_at);
        let cores = (0..usize::from(bytes[6])).map(|core| core_at(bytes, core));
        Sheet {
            tasks: tasks
                .map(|at| task(half(at), half(at + 2), bytes[at + 4], whole(at + 6)))
                .collect(),
            cores: cores.map(|at| core(half(at), whole(at + 4))).collect(),
        }
    }

    pub fn write(&self, version: u8) -> Vec<u8> {
        match version {
            1 => self.by_number(),
            2 => self.by_core(),
            _ => self.in_strokes(),
        }
    }

    /// The same sheet with these stroke lengths, by task number.
    pub fn with_strokes(&self, strokes: &[u8]) -> Sheet {
        let mut sheet = self.clone();
        for (task, stroke) in sheet.tasks.iter_mut().zip(strokes) {
            task.stroke = *stroke;
        }
        sheet
    }

    /// The bytes of version 1.
    pub fn by_number(&self) -> Vec<u8> {
        let tasks = self.tasks.iter().map(|task| record(task, [task.core, 0]));
        let cores = self.cores.iter().map(|core| core_record(core, 0));
        self.assembled(1, tasks.flatten().collect(), cores.flatten().collect())
    }

    /// The bytes of version 3.
    pub fn in_strokes(&self) -> Vec<u8> {
        let mut bytes = self.by_number();
        bytes[3] = 3;
        for (number, task) in self.tasks.iter().enumerate() {
            bytes[task_at(number) + 5] = task.stroke;
        }
        bytes
    }

    /// The bytes of version 2. A task of a core that is not there is left out.
    pub fn by_core(&self) -> Vec<u8> {
        let (mut tasks, mut cores) = (Vec::new(), Vec::new());
        for (number, core) in self.cores.iter().enumerate() {
            let order = self.order(number as u8);
            cores.extend(core_record(core, order.len() as u8));
            for number in order {
                tasks.extend(record(&self.tasks[number], [number as u8, 0]));
            }
        }
        self.assembled(2, tasks, cores)
    }

    fn assembled(&self, version: u8, tasks: Vec<u8>, cores: Vec<u8>) -> Vec<u8> {
        let (n, c) = (self.tasks.len() as u8, self.cores.len() as u8);
        let header = vec![b'T', b'S', b'H', version, 0, n, c, 0];
        [header, tasks, cores].concat()
    }

    /// The tasks of a core by priority.
    pub fn order(&self, core: u8) -> Vec<usize> {
        let tasks = 0..self.tasks.len();
        let mut order: Vec<usize> = tasks.filter(|&i| self.tasks[i].core == core).collect();
        order.sort_by_key(|&i| (self.tasks[i].period, i));
        order
    }

    /// The position of a task in version 2.
    pub fn position(&self, number: usize) -> usize {
        let cores = 0..self.cores.len() as u8;
        let mut order = cores.flat_map(|core| self.order(core));
        order.position(|task| task == number).expect("a task")
    }

    /// The listing, by section 8.
    pub fn listing(&self, version: u8) -> String {
        let (n, c) = (self.tasks.len(), self.cores.len());
        let mut text = format!("TSH {version} tasks {n} cores {c}\n");
        for (i, t) in self.tasks.iter().enumerate() {
            text += &format!(
                "task {i} core {} period {} budget {} factor {} within {}\n",
                t.core,
                t.period,
                t.budget,
                t.factor,
                self.within(i)
            );
        }
        for (k, core) in self.cores.iter().enumerate() {
            let (pivot, divisor, load) = (core.pivot, core.divisor, self.load(k as u8));
            text += &format!("core {k} pivot {pivot} divisor {divisor} load {load}\n");
        }
        text
    }

    pub fn within(&self, task: usize) -> u64 {
        let task = self.tasks[task];
        let core = self.cores[usize::from(task.core)];
        u64::from(core.pivot) * u64::from(task.factor) / u64::from(core.divisor)
    }

    /// The sum of e * D * (L / M) of a core, and Q * L.
    pub fn work(&self, core: u8) -> (u64, u64) {
        let order = self.order(core);
        let record = self.cores[usize::from(core)];
        let last = order.last().map_or(1, |&i| u64::from(self.tasks[i].factor));
        let share = |&i: &usize| {
            let task = self.tasks[i];
            u64::from(task.budget) * u64::from(record.divisor) * (last / u64::from(task.factor))
        };
        let sum = order.iter().map(share).sum();
        (sum, u64::from(record.pivot) * last)
    }

    /// B of a task: the longest stroke below it on its core, less 1.
    pub fn blocking(&self, task: usize) -> u64 {
        let order = self.order(self.tasks[task].core);
        let below = order.iter().skip_while(|&&other| other != task).skip(1);
        let strokes = below.map(|&other| u64::from(self.tasks[other].stroke) - 1);
        strokes.max().unwrap_or(0)
    }

    /// Whether for each task the work of it and those above it, and B, are at most its accelerated period: each times D x M.
    pub fn fits(&self, core: u8) -> bool {
        let order = self.order(core);
        let record = self.cores[usize::from(core)];
        let divisor = u64::from(record.divisor);
        (0..order.len()).all(|place| {
            let own = u64::from(self.tasks[order[place]].factor);
            let share = |&i: &usize| {
                let task = self.tasks[i];
                u64::from(task.budget) * divisor * (own / u64::from(task.factor))
            };
            let sum: u64 = order[..=place].iter().map(share).sum();
            sum + self.blocking(order[place]) * divisor <= u64::from(record.pivot) * own
        })
    }

    /// The load of a core in thousandths, rounded up.
    pub fn load(&self, core: u8) -> u64 {
        let (work, room) = self.work(core);
        (1000 * work).div_ceil(room)
    }
}

fn record(task: &Task, middle: [u8; 2]) -> Vec<u8> {
    let mut bytes = Vec::new();
    bytes.extend(task.period.to_le_bytes());
    bytes.extend(task.budget.to_le_bytes());
    bytes.extend(middle);
    bytes.extend(task.factor.to_le_bytes());
    bytes
}

fn core_record(core: &CoreRecord, third: u8) -> Vec<u8> {
    let mut bytes = core.pivot.to_le_bytes().to_vec();
    bytes.extend([third, 0]);
    bytes.extend(core.divisor.to_le_bytes());
    bytes
}

/// Where the record of a task or position begins.
pub fn task_at(position: usize) -> usize {
    8 + 10 * position
}

/// Where the record of a core begins.
pub fn core_at(bytes: &[u8], core: usize) -> usize {
    8 + 10 * usize::from(bytes[5]) + 8 * core
}

/// The bytes with others from an offset on.
pub fn with(bytes: &[u8], at: usize, others: &[u8]) -> Vec<u8> {
    let mut bytes = bytes.to_vec();
    bytes[at..at + others.len()].copy_from_slice(others);
    bytes
}

pub fn with16(bytes: &[u8], at: usize, number: u16) -> Vec<u8> {
    with(bytes, at, &number.to_le_bytes())
}

pub fn with32(bytes: &[u8], at: usize, number: u32) -> Vec<u8> {
    with(bytes, at, &number.to_le_bytes())
}

impl Rng {
    /// A sheet that fits with strokes of random lengths with which it fits.
    pub fn stroked(&mut self, made: &Sheet) -> Sheet {
        let mut longest = self.range(1, 255);
        loop {
            let most = |task: &Task| longest.min(task.budget.into());
            let strokes: Vec<u8> = made
                .tasks
                .iter()
                .map(|task| self.range(1, most(task)) as u8)
                .collect();
            let stroked = made.with_strokes(&strokes);
            if longest == 1 || (0..made.cores.len() as u8).all(|core| stroked.fits(core)) {
                return stroked;
            }
            longest /= 2;
        }
    }

    /// A sheet that is mostly accepted: on each core a chain of factors, periods that are long enough, small budgets.
    pub fn sheet(&mut self) -> Sheet {
        let mut made = Sheet::default();
        for number in 0..self.range(1, 8) {
            let (pivot, divisor) = (self.range(8, 2000), self.range(1, 6));
            made.cores.push(core(pivot as u16, divisor as u32));
            let mut factor = self.range(divisor, 3 * divisor);
            for _ in 0..self.range(1, 8) {
                let shortest = (pivot * factor).div_ceil(divisor);
                let period = shortest.min(60_000);
                let budget = self.range(1, (period / 8).max(1));
                made.tasks.push(task(
                    period as u16,
                    budget as u16,
                    number as u8,
                    factor as u32,
                ));
                let next = factor * self.range(1, 3);
                if pivot * next <= 60_000 * divisor {
                    factor = next;
                }
            }
        }
        made
    }
}
