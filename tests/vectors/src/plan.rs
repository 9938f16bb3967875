//! The planner.

use crate::form::{expect, hex, refused, File};
use reference::{list, plan};

pub fn file() -> File {
    let about = [
        "The planner: a job list, a core limit, a start and the bytes of the buffer; the answer, the sheet and its listing.",
    ];
    let mut to = Plans(File::new("plan.txt", &about));
    one_core(&mut to);
    cores(&mut to);
    refusals(&mut to);
    two_refusals(&mut to);
    to.0
}

/// The bytes of jobs (period, budget).
pub fn jobs(jobs: &[(u16, u16)]) -> Vec<u8> {
    let entry = |&(p, e): &(u16, u16)| [p.to_le_bytes(), e.to_le_bytes()].concat();
    jobs.iter().flat_map(entry).collect()
}

/// Limit, start and length of the buffer.
type Asked = (u64, u64, usize);

/// Of a core the pivot, the divisor, and the number and the factor of each task.
type Figures<'a> = (u64, u64, &'a [(usize, u64)]);

struct Plans(File);

impl Plans {
    fn heading(&mut self, line: &str) {
        self.0.heading(&[line]);
    }

    fn case(&mut self, title: &str, list: &[u8], asked: Asked, answer: Vec<String>) {
        let (limit, start, room) = asked;
        let mut lines = vec![
            format!("list {}", hex(list)),
            format!("limit {limit}"),
            format!("start {start}"),
            format!("room {room}"),
        ];
        lines.extend(answer);
        self.0.case(title, &lines);
    }

    fn refused(&mut self, title: &str, number: u8, place: u16, list: &[u8], asked: Asked) {
        let (limit, start, room) = asked;
        let answer = plan(list, limit, start, &mut vec![0; room]);
        let said = refused(number, place as u64);
        expect(title, &said, &refused(answer.refusal, answer.place as u64));
        self.case(title, list, asked, vec![said]);
    }

    /// A plan with the figures of its cores.
    fn made(
        &mut self,
        title: &str,
        list_of: &[(u16, u16)],
        (limit, start): (u64, u64),
        cores: &[Figures],
    ) {
        let (bytes, sheet) = self.written(title, list_of, (limit, start));
        let sheet_read = reference::accept(&sheet).expect("a plan is accepted");
        assert_eq!(sheet_read.cores.len(), cores.len(), "{title}");
        let mut tasks = 0;
        for (k, &(pivot, divisor, factors)) in cores.iter().enumerate() {
            let core = sheet_read.cores[k];
            assert_eq!((core.pivot, core.divisor), (pivot, divisor), "{title}");
            for &(task, factor) in factors {
                let record = sheet_read.tasks[task];
                assert_eq!((record.core, record.factor), (k, factor), "{title}");
                tasks += 1;
            }
        }
        assert_eq!(tasks, sheet_read.tasks.len(), "{title}");
        self.answered(title, &bytes, (limit, start), &sheet);
    }

    /// A plan of many tasks, which nobody worked out by hand.
    fn large(&mut self, title: &str, list_of: &[(u16, u16)], (limit, start): (u64, u64)) {
        let (bytes, sheet) = self.written(title, list_of, (limit, start));
        self.answered(title, &bytes, (limit, start), &sheet);
    }

    fn written(
        &self,
        title: &str,
        list_of: &[(u16, u16)],
        (limit, start): (u64, u64),
    ) -> (Vec<u8>, Vec<u8>) {
        let bytes = jobs(list_of);
        let mut out = vec![0; 712];
        let answer = plan(&bytes, limit, start, &mut out);
        assert_eq!(answer.refusal, 0, "{title}");
        out.truncate(answer.length as usize);
        (bytes, out)
    }

    fn answered(&mut self, title: &str, bytes: &[u8], (limit, start): (u64, u64), sheet: &[u8]) {
        let (n, c, length) = (sheet[5], sheet[6], sheet.len());
        let mut answer = vec![
            format!("accepted tasks {n} cores {c} length {length}"),
            format!("gives {}", hex(sheet)),
        ];
        let listing = String::from_utf8(list(sheet)).expect("ASCII");
        answer.extend(listing.lines().map(|line| format!("| {line}")));
        self.case(title, bytes, (limit, start, 712), answer);
    }
}

fn one_core(to: &mut Plans) {
    to.heading("Plans on one core");
    to.made("An empty list with limit 0", &[], (0, 0), &[]);
    to.made("An empty list with limit 8", &[], (8, 0), &[]);
    to.made(
        "One task of the longest period and budget",
        &[(60_000, 60_000)],
        (1, 0),
        &[(60_000, 1, &[(0, 1)])],
    );
    to.made(
        "By Sr on base 2 with the first task as pivot task: 2, 8, 16",
        &[(2, 1), (11, 2), (17, 4)],
        (1, 0),
        &[(2, 1, &[(0, 1), (1, 4), (2, 8)])],
    );
    to.made(
        "By Sr on base 2 with the second: 9/2, 9; with the first, 5 and 5, the load is above one",
        &[(5, 1), (9, 7)],
        (1, 0),
        &[(9, 2, &[(0, 1), (1, 2)])],
    );
    for start in 0..3 {
        to.made(
            &format!("By Sr on base 3: 2, 18, 54, from start {start}"),
            &[(2, 1), (20, 2), (55, 20)],
            (1, start),
            &[(2, 1, &[(0, 1), (1, 9), (2, 27)])],
        );
    }
    to.made(
        "By Sr on base 3 with the second task as pivot task: 14/3, 14",
        &[(5, 2), (14, 8)],
        (1, 0),
        &[(14, 3, &[(0, 1), (1, 3)])],
    );
    to.made(
        "Sr on base 3, 2, 6, 6, comes before DCT, 2, 6, 12",
        &[(2, 1), (6, 2), (12, 1)],
        (1, 0),
        &[(2, 1, &[(0, 1), (1, 3), (2, 3)])],
    );
    to.made(
        "By DCT upwards: 2, 10",
        &[(2, 1), (10, 5)],
        (1, 0),
        &[(2, 1, &[(0, 1), (1, 5)])],
    );
    to.made(
        "By DCT downwards: 14/5, 14",
        &[(3, 1), (14, 9)],
        (1, 0),
        &[(14, 5, &[(0, 1), (1, 5)])],
    );
    to.made(
        "By DCT both ways, with the task in the middle as pivot task: 8/3, 8, 16",
        &[(3, 1), (8, 3), (20, 4)],
        (1, 0),
        &[(8, 3, &[(0, 1), (1, 3), (2, 6)])],
    );
    to.made(
        "Tasks of one period",
        &[(7, 2), (7, 4), (7, 1)],
        (1, 2),
        &[(7, 1, &[(0, 1), (1, 1), (2, 1)])],
    );
    to.made(
        "The last task by number is the first by priority, and has the factor 1",
        &[(16, 4), (8, 2), (4, 2)],
        (1, 0),
        &[(4, 1, &[(2, 1), (1, 2), (0, 4)])],
    );
}

fn cores(to: &mut Plans) {
    to.heading("Plans on several cores");
    let thirds = [(3, 1), (3, 1), (3, 2)];
    to.made(
        "Ties in the ring go by number; from start 0 tasks 0 and 1 share core 0",
        &thirds,
        (8, 0),
        &[(3, 1, &[(0, 1), (1, 1)]), (3, 1, &[(2, 1)])],
    );
    to.made(
        "From start 1 the walk is 1, 2, 0: tasks 1 and 2 share core 0",
        &thirds,
        (8, 1),
        &[(3, 1, &[(1, 1), (2, 1)]), (3, 1, &[(0, 1)])],
    );
    to.made(
        "From start 2 the walk is 2, 0, 1: tasks 2 and 0 share core 0",
        &thirds,
        (8, 2),
        &[(3, 1, &[(0, 1), (2, 1)]), (3, 1, &[(1, 1)])],
    );
    let around = [(3, 1), (4, 1), (5, 3)];
    to.made(
        "The ring is 1, 2, 0; from start 0 tasks 1 and 2 share core 0",
        &around,
        (2, 0),
        &[(4, 1, &[(1, 1), (2, 1)]), (3, 1, &[(0, 1)])],
    );
    to.made(
        "From start 1 the walk is 2, 0, 1: tasks 2 and 0 share core 0, 5/2 and 5",
        &around,
        (2, 1),
        &[(5, 2, &[(0, 1), (2, 2)]), (4, 1, &[(1, 1)])],
    );
    to.made(
        "First fit: the third task goes back to core 0, though core 1 has room too",
        &[(8, 5), (8, 5), (8, 3)],
        (2, 0),
        &[(8, 1, &[(0, 1), (2, 1)]), (8, 1, &[(1, 1)])],
    );
    to.large("Eight full cores", &[(4, 4); 8], (8, 0));
    let ten = [
        (7, 2),
        (21, 3),
        (29, 9),
        (49, 15),
        (64, 20),
        (66, 16),
        (160, 32),
        (235, 72),
        (260, 25),
        (450, 120),
    ];
    to.large("Ten tasks", &ten, (8, 0));
    to.large("The same from start 9", &ten, (8, 9));
    let many: Vec<_> = (0..64).map(|i| (20 + i, 3 + i % 5)).collect();
    to.large("64 tasks on 8 cores", &many, (8, 0));
}

fn refusals(to: &mut Plans) {
    let good = jobs(&[(5, 1), (9, 7)]);
    to.heading("5 Length: the list's length is no multiple of 4");
    to.refused("A list of one byte", 5, 0, &[5], (1, 0, 712));
    to.refused("The last byte is missing", 5, 0, &good[..7], (1, 0, 712));
    to.refused(
        "A byte behind the last entry",
        5,
        0,
        &[&good[..], &[0]].concat(),
        (1, 0, 712),
    );

    to.heading("4 Count: more than 64 entries, or a limit above 8");
    to.refused("65 entries", 4, 0, &jobs(&[(65, 1); 65]), (8, 0, 712));
    to.refused("Limit 9", 4, 0, &good, (9, 0, 712));
    to.refused("Limit 257: its low byte is 1", 4, 0, &good, (257, 0, 712));
    to.refused(
        "The largest limit, for an empty list",
        4,
        0,
        &[],
        (u64::MAX, 0, 712),
    );

    to.heading("7 Period: it is not 1 to 60,000");
    to.refused(
        "The first period is 0",
        7,
        0,
        &jobs(&[(0, 1), (9, 7)]),
        (1, 0, 712),
    );
    to.refused(
        "The last period is 60,001",
        7,
        1,
        &jobs(&[(5, 1), (60_001, 7)]),
        (1, 0, 712),
    );
    to.refused(
        "The second and third periods of four are 0",
        7,
        1,
        &jobs(&[(5, 1), (0, 1), (0, 1), (5, 1)]),
        (1, 0, 712),
    );

    to.heading("8 Budget: it is not 1 to the period");
    to.refused(
        "The first budget is 0",
        8,
        0,
        &jobs(&[(5, 0), (9, 7)]),
        (1, 0, 712),
    );
    to.refused(
        "The last budget is one above its period",
        8,
        1,
        &jobs(&[(5, 1), (9, 10)]),
        (1, 0, 712),
    );
    to.refused(
        "The second and third budgets of four are wrong",
        8,
        1,
        &jobs(&[(5, 1), (5, 6), (5, 0), (5, 1)]),
        (1, 0, 712),
    );

    to.heading("22 Start: it is no position in the ring");
    to.refused("Start 2 for two tasks", 22, 0, &good, (1, 2, 712));
    to.refused("Start 1 for an empty list", 22, 0, &[], (1, 1, 712));
    to.refused(
        "Start 2 to the 32nd: its low bytes are 0",
        22,
        0,
        &good,
        (1, 1 << 32, 712),
    );
    to.refused("The largest start", 22, 0, &good, (1, u64::MAX, 712));

    to.heading("16 Tight: the buffer has fewer than 712 bytes");
    to.refused(
        "A buffer of 711 bytes, where the sheet needs 36",
        16,
        0,
        &good,
        (1, 0, 711),
    );
    to.refused(
        "A buffer of 36 bytes, as many as the sheet needs",
        16,
        0,
        &good,
        (1, 0, 36),
    );
    to.refused("No buffer, for an empty list", 16, 0, &[], (0, 0, 0));

    to.heading("15 No fit: a task finds no core");
    to.refused(
        "Two tasks that share no core",
        15,
        1,
        &jobs(&[(10, 4), (15, 9)]),
        (1, 0, 712),
    );
    to.refused(
        "Limit 0: the first task walked, from start 0",
        15,
        1,
        &good,
        (0, 0, 712),
    );
    to.refused(
        "Limit 0: the first task walked, from start 1",
        15,
        0,
        &good,
        (0, 1, 712),
    );
    to.refused(
        "Nine full tasks on eight cores",
        15,
        8,
        &jobs(&[(4, 4); 9]),
        (8, 0, 712),
    );
    to.refused(
        "The same from start 5: the last task walked",
        15,
        4,
        &jobs(&[(4, 4); 9]),
        (8, 5, 712),
    );
    let seven = [(16, 2), (5, 3), (27, 7), (23, 9), (12, 8), (9, 3), (25, 3)];
    to.refused(
        "Seven tasks on three cores, from start 5",
        15,
        4,
        &jobs(&seven),
        (3, 5, 712),
    );
}

fn two_refusals(to: &mut Plans) {
    to.heading("Two things are wrong: the first is named");
    let many = [jobs(&[(65, 1); 65]), vec![0]].concat();
    to.refused("5 before 4", 5, 0, &many, (9, 0, 712));
    to.refused("4 before 7", 4, 0, &jobs(&[(0, 1)]), (9, 0, 712));
    to.refused(
        "7 at the last task before 8 at the first",
        7,
        1,
        &jobs(&[(5, 0), (0, 1)]),
        (1, 0, 712),
    );
    to.refused("8 before 22", 8, 0, &jobs(&[(5, 0)]), (1, 1, 712));
    to.refused("22 before 16", 22, 0, &jobs(&[(5, 1)]), (1, 1, 0));
    to.refused("16 before 15", 16, 0, &jobs(&[(5, 1)]), (0, 0, 711));
}
