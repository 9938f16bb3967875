//! What `run` prints: the log, held against the dispatcher and the on-time rule of the tests, and the table below it.

use super::running::{calls_of, judge, read_log, unbroken, Call, CoreLog, LogTask, Model, Tally};
use super::{numbers, Folder, Ran};

/// A line of the table: a task's core (none on the bench), number, name and how its jobs got on.
pub struct Line {
    pub core: Option<u8>,
    pub task: u8,
    pub name: String,
    pub jobs: u64,
    pub late: u64,
    pub within: u64,
    /// The latest end and the margin.
    pub ends: (String, String),
}

/// The table below a log, or the table alone.
pub fn table(text: &str) -> Vec<Line> {
    let text = text.replace("\n# ", "\n").replace("\n#", "\n");
    let mut lines = text
        .lines()
        .skip_while(|line| !line.contains(" latest end"));
    let Some(head) = lines.next() else {
        return Vec::new();
    };
    let cores = head.trim_start().starts_with("core");
    let rows = lines.take_while(|line| line.starts_with(' '));
    rows.map(|row| table_line(row, cores)).collect()
}

fn table_line(row: &str, cores: bool) -> Line {
    let row = row.replace("over ", "over_").replace("below ", "below_");
    let words: Vec<&str> = row.split_whitespace().collect();
    let (front, rest) = words.split_at(words.len() - 5);
    let number = |word: &str| -> u64 { word.parse().unwrap_or_else(|_| panic!("`{row}`")) };
    let shown = |word: &str| word.replace('_', " ");
    Line {
        core: cores.then(|| number(front[0]) as u8),
        task: number(front[usize::from(cores)]) as u8,
        name: front[1 + usize::from(cores)..].join(" "),
        jobs: number(rest[0]),
        late: number(rest[1]),
        within: number(rest[3]),
        ends: (shown(rest[2]), shown(rest[4])),
    }
}

/// Holds a run against the dispatcher and the on-time rule of the tests: every answer, every line of the table, the sums, the status.
pub fn holds(ran: &Ran) -> Vec<CoreLog> {
    let logs = read_log(&ran.out);
    let mut rows = table(&ran.out).into_iter();
    let mut sums = Sums::default();
    for log in &logs {
        answers(log, ran);
        unbroken(log);
        let ticks = log.calls.iter().filter(|(call, _)| *call == Call::Tick);
        sums.ticks += ticks.count() as u64;
        let tallies = judge(log);
        for task in &log.tasks {
            let row = rows.next().unwrap_or_else(|| panic!("a row: {ran}"));
            let tally = tallies[&task.number];
            assert_eq!(row.core, log.core, "{ran}");
            table_row(&row, task, &tally, ran);
            sums.jobs += tally.jobs;
            sums.late += tally.late;
            sums.pending += tally.pending;
        }
    }
    assert!(rows.next().is_none(), "{ran}");
    sums.told(ran);
    logs
}

/// Every answer is that of the dispatcher.
fn answers(log: &CoreLog, ran: &Ran) {
    let mut model = Model::start(&log.tasks);
    for (place, &(call, answer)) in log.calls.iter().enumerate() {
        assert_eq!(model.call(call), answer, "call {place}, {call:?}: {ran}");
    }
}

fn table_row(row: &Line, task: &LogTask, tally: &Tally, ran: &Ran) {
    assert_eq!(row.task, task.number, "{ran}");
    assert_eq!(row.name, task.name.clone().unwrap_or_default(), "{ran}");
    assert_eq!((row.jobs, row.late), (tally.jobs, tally.late), "{ran}");
    assert_eq!(row.within, task.within, "{ran}");
    assert_eq!(row.ends, tally.shown(task.within), "{ran}");
}

#[derive(Default)]
struct Sums {
    jobs: u64,
    late: u64,
    ticks: u64,
    pending: u64,
}

impl Sums {
    /// The lines below the table, and the status.
    fn told(&self, ran: &Ran) {
        let line = |words: &str| ran.out.lines().find(|line| line.contains(words));
        let sums = line(" ticks").or_else(|| line(" tick:"));
        let sums = numbers(sums.unwrap_or_else(|| panic!("no sums: {ran}")));
        assert_eq!(sums[..2], [self.jobs as i64, self.ticks as i64], "{ran}");
        assert_eq!(line("none is late").is_some(), self.late == 0, "{ran}");
        let pending = line("pending at the end").map_or(0, |line| numbers(line)[0]);
        assert_eq!(pending, self.pending as i64, "{ran}");
        assert_eq!(ran.status, i32::from(self.late > 0), "{ran}");
    }
}

/// Each log that a run prints is read back as the same run: the log itself, its calls without their answers, and by -o.
pub fn reads_back(folder: &Folder, words: &[&str], ran: &Ran) {
    let with = |calls: &str, options: &[&str]| {
        folder.write("back.log", calls);
        let front = [words, &["--calls", "back.log"], options].concat();
        folder.run(&front)
    };
    let again = with(&ran.out, &[]);
    assert_eq!(again.out, ran.out, "{again}");
    assert_eq!(again.status, ran.status, "{again}");
    let bare = with(&calls_of(&ran.out), &[]);
    assert_eq!(bare.out, ran.out, "{bare}");
    let apart = with(&ran.out, &["-o", "apart.log"]);
    let log = String::from_utf8(folder.read("apart.log")).expect("text");
    assert!(ran.out.starts_with(&log), "{apart}");
    assert_eq!(read_log(&log), read_log(&ran.out));
    let rest = ran.out[log.len()..].replace("\n# ", "\n");
    let rest = rest.trim_start_matches("# ");
    assert!(apart.out.starts_with(rest), "{apart}\n{rest}");
}
