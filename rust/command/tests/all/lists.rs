//! Job lists: `plan` and `margins`.

use crate::common::sheets::{core, full_core, longest, sheet, task, Sheet};
use crate::common::{example, numbers, text_of, Folder, Ran, Rng};

type Jobs = [(u16, u16)];
/// Pivot and divisor.
type Figures = (u16, u32);

/// The jobs, planned with these options; the sheet on standard output.
fn planned(folder: &Folder, jobs: &Jobs, options: &[&str]) -> Ran {
    let words = [&["plan", "-", "-o", "-"], options].concat();
    folder.run_on(&words, text_of(jobs))
}

/// A table as it is printed: its head, and for each row the first number, the name if there is one, and the numbers behind it.
struct Row {
    task: i64,
    name: String,
    rest: Vec<i64>,
}

fn table(text: &str, head: &str) -> Vec<Row> {
    let lines: Vec<&str> = text.lines().collect();
    let heads = |line: &str| line.split_whitespace().collect::<Vec<_>>().join(" ");
    let at = lines
        .iter()
        .position(|line| heads(line).replace(" name", "") == head)
        .unwrap_or_else(|| panic!("no table `{head}` in\n{text}"));
    let columns = head.split(' ').count() - 1;
    let body = lines[at + 1..].iter();
    // the first column is wider than its numbers
    let body = body.take_while(|line| line.starts_with(' '));
    body.map(|line| row(line, columns)).collect()
}

fn row(line: &str, columns: usize) -> Row {
    let words: Vec<&str> = line.split_whitespace().collect();
    let number = |word: &&str| word.parse().unwrap_or_else(|_| panic!("`{line}`"));
    let (front, rest) = words.split_at(words.len() - columns);
    Row {
        task: number(&front[0]),
        name: front[1..].join(" "),
        rest: rest.iter().map(number).collect(),
    }
}

const PLAN: &str = "task line core period budget factor within";
const MARGINS: &str = "task line period budget margin";

#[test]
fn the_plans_of_the_specification() {
    let folder = Folder::new();
    let one = |jobs: &Jobs, factors: &[u32], (pivot, divisor): (u16, u32)| {
        let tasks = jobs.iter().zip(factors);
        let tasks: Vec<_> = tasks.map(|(&(p, e), &m)| task(p, e, 0, m)).collect();
        sheet(&tasks, &[core(pivot, divisor)])
    };
    let thirds = [(2, 1), (20, 2), (55, 20)];
    let cases: [(&Jobs, &[u32], Figures, &str); 9] = [
        (&[(5, 1), (9, 7)], &[1, 2], (9, 2), "0"),
        (&[(2, 1), (11, 2), (17, 4)], &[1, 4, 8], (2, 1), "0"),
        (&thirds, &[1, 9, 27], (2, 1), "0"),
        (&thirds, &[1, 9, 27], (2, 1), "1"),
        (&thirds, &[1, 9, 27], (2, 1), "2"),
        (&[(2, 1), (6, 2), (12, 1)], &[1, 3, 3], (2, 1), "0"),
        (&[(5, 2), (14, 8)], &[1, 3], (14, 3), "0"),
        (&[(2, 1), (10, 5)], &[1, 5], (2, 1), "0"),
        (&[(3, 1), (14, 9)], &[1, 5], (14, 5), "0"),
    ];
    for (jobs, factors, figures, start) in cases {
        let ran = planned(&folder, jobs, &["--cores", "1", "--start", start]);
        assert_eq!(ran.bytes, one(jobs, factors, figures).by_number(), "{ran}");
        ran.ends(0);
    }
    let jobs = [(3, 1), (3, 1), (3, 2)];
    for (start, cores) in [("0", [0, 0, 1]), ("1", [1, 0, 0])] {
        let ran = planned(&folder, &jobs, &["--start", start]).ends(0);
        let sheet = Sheet::read(&ran.bytes);
        let there: Vec<u8> = sheet.tasks.iter().map(|task| task.core).collect();
        assert_eq!(there, cores);
        assert_eq!(sheet.cores, [core(3, 1); 2]);
    }
    let empty = planned(&folder, &[], &[]).ends(0);
    assert_eq!(empty.bytes, b"TSH\x01\x00\x00\x00\x00");
}

#[test]
fn the_refusals_of_the_specification() {
    let folder = Folder::new();
    let many = [(16, 2), (5, 3), (27, 7), (23, 9), (12, 8), (9, 3), (25, 3)];
    let same = [(3, 1), (3, 1), (3, 2)];
    let cases: [(&Jobs, &[&str], &str, u64); 3] = [
        (&many, &["--cores", "3", "--start", "5"], "line 5", 4),
        (&[(10, 4), (15, 9)], &["--cores=1"], "line 2", 1),
        (&same, &["--cores=0", "--start=1"], "line 2", 1),
    ];
    for (jobs, options, line, task) in cases {
        let ran = planned(&folder, jobs, options).ends(1).prints_nothing();
        ran.tells("refused 15 (No fit)")
            .tells(line)
            .tells(&format!("task {task}"));
    }
    let ran = planned(&folder, &same, &["--start=3"]).prints_nothing();
    assert_ne!(ran.status, 0);
    ran.tells("start 3").tells("0 to 2");
}

#[test]
fn the_examples_are_planned_as_the_proved_program_does() {
    let folder = Folder::new();
    for name in ["full-core", "ten-tasks", "sixty-four"] {
        let jobs = example(&format!("{name}.jobs"));
        let stored = format!("../../tests/programs/{name}.out");
        let listing = std::fs::read_to_string(stored).expect("the stored listing");
        let jobs = jobs.to_str().expect("text");
        folder.run(&["plan", jobs, "-o", "out.tsh"]).ends(0);
        assert_eq!(folder.run(&["list", "out.tsh"]).ends(0).out, listing);
    }
}

#[test]
fn the_table_says_what_the_sheet_says() {
    let folder = Folder::new();
    let mut rng = Rng(1);
    let mut shown = 0;
    for _ in 0..60 {
        let jobs = rng.jobs(64);
        folder.write("a.jobs", text_of(&jobs));
        let words = folder.run(&["plan", "a.jobs", "-o", "a.tsh"]);
        if words.status == 1 {
            continue;
        }
        let sheet = Sheet::read(&folder.read("a.tsh"));
        same_as_sheet(&words.out, &sheet);
        let bare = folder.run(&["plan", "a.jobs"]).ends(0).out;
        same_as_sheet(&bare, &sheet);
        shown += 1;
    }
    assert!(shown > 20, "{shown}");
}

fn same_as_sheet(text: &str, sheet: &Sheet) {
    let rows = table(text, PLAN);
    assert_eq!(rows.len(), sheet.tasks.len(), "{text}");
    for (number, (row, task)) in rows.iter().zip(&sheet.tasks).enumerate() {
        let expected = [
            number as i64 + 1,
            i64::from(task.core),
            i64::from(task.period),
            i64::from(task.budget),
            i64::from(task.factor),
            sheet.within(number) as i64,
        ];
        assert_eq!((row.task, &row.rest[..]), (number as i64, &expected[..]));
    }
    let cores = text.lines().skip_while(|line| !line.starts_with("core  "));
    let cores: Vec<&str> = cores.skip(1).take(sheet.cores.len()).collect();
    for (number, (line, core)) in cores.iter().zip(&sheet.cores).enumerate() {
        let mut expected = vec![
            number as i64,
            i64::from(core.pivot),
            i64::from(core.divisor),
            sheet.load(number as u8) as i64,
        ];
        let tasks = (0..sheet.tasks.len()).filter(|&i| sheet.tasks[i].core == number as u8);
        expected.extend(tasks.map(|i| i as i64));
        let mut given = numbers(line);
        given[4..].sort_unstable();
        assert_eq!(given, expected, "{text}");
    }
    let counts = (sheet.tasks.len(), sheet.cores.len());
    let said = text.lines().find(|line| line.contains("planned from"));
    let said = numbers(said.expect("a summary").split_once(':').expect("a path").1);
    assert_eq!(said[..2], [counts.0 as i64, counts.1 as i64], "{text}");
}

#[test]
fn names_stand_in_the_tables() {
    let folder = Folder::new();
    let text = "# period budget name\n\n5 1 key\t\n 9  7\tthe main receiver # all of it\r\n30 1\n40 1 Ünïcode 9-x/y\n";
    folder.write("n.jobs", text);
    let names = ["key", "the main receiver", "", "Ünïcode 9-x/y"];
    let lines = [3, 4, 5, 6];
    let plan = folder.run(&["plan", "n.jobs", "-o", "n.tsh"]).ends(0).out;
    let margins = folder.run(&["margins", "n.jobs"]).ends(1).out;
    for rows in [table(&plan, PLAN), table(&margins, MARGINS)] {
        let given: Vec<&str> = rows.iter().map(|row| row.name.as_str()).collect();
        assert_eq!(given, names);
        let given: Vec<i64> = rows.iter().map(|row| row.rest[0]).collect();
        assert_eq!(given, lines);
    }
    let jobs = [(5, 1), (9, 7), (30, 1), (40, 1)];
    let bare = planned(&folder, &jobs, &[]).ends(0).bytes;
    assert_eq!(folder.read("n.tsh"), bare, "a name changes no byte");
    let ran = folder.run(&["plan", "n.jobs", "--cores", "1"]).ends(1);
    ran.tells("line 6").tells("task 3").tells("Ünïcode 9-x/y");
    folder
        .run_on(&["plan", "-"], "5 6 key\n")
        .ends(1)
        .tells("line 1");
}

/// Lists that are refused, the line that is wrong, and a word that must be told.
const BAD: [(&[u8], &str, &str); 29] = [
    (b"5\n", "line 1", "budget"),
    (b"5 1\n\n# x\n9\n", "line 4", "budget"),
    (b"5 1 7\n", "line 1", "7"),
    (b"5 1 7 key\n", "line 1", "7"),
    (b"5 1 -\n", "line 1", "name"),
    (b"5 1\nfive 1\n", "line 2", "five"),
    (b"5 one\n", "line 1", "one"),
    (b"5,1\n", "line 1", "5,1"),
    (b"-5 1\n", "line 1", "-5"),
    (b"5 -1\n", "line 1", "-1"),
    (b"+5 1\n", "line 1", "+5"),
    (b"5.0 1\n", "line 1", "5.0"),
    (b"0x5 1\n", "line 1", "0x5"),
    (b"0 1\n", "line 1", "refused 7"),
    (b"60001 1\n", "line 1", "60001"),
    (b"5 1\n60001 60002\n", "line 2", "refused 7"),
    (b"5 0\n", "line 1", "refused 8"),
    (b"5 6\n", "line 1", "6"),
    (b"5 6\n0 1\n", "line 2", "refused 7"),
    (b"\n\n5 1\n9 10\n", "line 4", "refused 8"),
    (b"65536 1\n", "line 1", "65536"),
    (b"5 65536\n", "line 1", "65536"),
    (
        b"18446744073709551621 1\n",
        "line 1",
        "18446744073709551621",
    ),
    (
        b"5 18446744073709551617\n",
        "line 1",
        "18446744073709551617",
    ),
    (b"5 1\n9 7\xff\n", "line 2", "UTF-8"),
    (b"5 1 a\xffb\n", "line 1", "UTF-8"),
    (b"5\x001\n", "line 1", ""),
    (b"5 1 a\x00b\n", "line 1", "name"),
    (b"5 1 a\x1b[31mb\n", "line 1", "name"),
];

#[test]
fn bad_lines() {
    let folder = Folder::new();
    let long = format!("5 1 a{}", "b".repeat(70_000));
    for (text, line, word) in BAD.into_iter().chain([(long.as_bytes(), "line 1", "name")]) {
        folder.write("bad.jobs", text);
        for words in [
            &["plan", "bad.jobs"][..],
            &["plan", "bad.jobs", "--all-starts"],
            &["plan", "bad.jobs", "-o", "new.tsh"],
            &["margins", "bad.jobs"],
            &["run", "--bench", "bad.jobs"],
            &["draw", "--bench", "bad.jobs"],
        ] {
            let ran = folder.run(words).ends(1).prints_nothing();
            let ran = ran.tells("bad.jobs").tells(line).tells(word);
            assert_eq!(ran.err.lines().count(), 1, "one sentence: {ran}");
            assert!(!ran.err.contains('\u{1b}'), "{ran}");
        }
        let ran = folder.run_on(&["plan", "-"], text).ends(1);
        ran.tells("standard input").tells(line);
    }
    assert_eq!(folder.names(), ["bad.jobs"]);
}

#[test]
fn long_words() {
    let folder = Folder::new();
    let zeros = "0".repeat(60_000);
    for text in [
        format!("5 1 {zeros}\n"),
        format!("{zeros}x 1\n"),
        format!("5 1{}\n", "2".repeat(60_000)),
        format!("5 1 a{zeros}\n"),
    ] {
        let ran = folder.run_on(&["plan", "-"], text).ends(1).tells("line 1");
        assert!(ran.err.len() < 1000, "{} bytes told", ran.err.len());
    }
    let ran = folder.run_on(&["plan", "-"], format!("{zeros}5 {zeros}1\n"));
    assert_ne!(ran.status, 2);
}

#[test]
fn what_a_list_may_look_like() {
    let folder = Folder::new();
    let plain = planned(&folder, &[(5, 1), (9, 7)], &[]).ends(0).bytes;
    for text in [
        "5 1\n9 7",
        "5 1\r\n9 7\r\n",
        "\t5\t1\t\n   9      7   ",
        "#\n##5 5\n5 1#x\n\n\n9 7 # y\n#",
        "05 001\n0009 7\n",
        "5 1 a\n9 7 a\n",
        "5 1 key # name\n9 7# bare\n",
        "# \u{fc}mlaut\n5 1\n9 7\n",
        "5 1 é\n9 7 名前\n",
    ] {
        let ran = folder.run_on(&["plan", "-", "-o", "-"], text).ends(0);
        assert_eq!(ran.bytes, plain, "{text:?}");
    }
    for text in ["", "\n", "# nothing\n", " \t\r\n#"] {
        let ran = folder.run_on(&["plan", "-", "-o", "-"], text).ends(0);
        assert_eq!(ran.bytes, b"TSH\x01\x00\x00\x00\x00");
        folder.run_on(&["margins", "-"], text).ends(0);
        folder
            .run_on(&["plan", "-"], text)
            .ends(0)
            .prints("0 tasks");
    }
}

#[test]
fn sixty_four_jobs_and_one_more() {
    let folder = Folder::new();
    let jobs = "8 1\n".repeat(64);
    let ran = folder.run_on(&["plan", "-", "-o", "-"], &jobs).ends(0);
    assert_eq!(ran.bytes, longest().by_number());
    folder.run_on(&["margins", "-"], &jobs).ends(1);
    let more = format!("# {}\n\n{jobs}\n8 1\nnot a line\n", "x".repeat(300));
    for words in [
        &["plan", "-"][..],
        &["margins", "-"],
        &["run", "--bench", "-"],
    ] {
        let ran = folder.run_on(words, &more).ends(1).prints_nothing();
        ran.tells("line 68").tells("64").tells("refused 4");
    }
    let comments = format!("{jobs}{}", "# nothing\n".repeat(1000));
    folder.run_on(&["plan", "-"], comments).ends(0);
}

#[test]
fn no_end_of_comments() {
    let folder = Folder::new();
    let text = format!("5 1\n#{}\n9 7\n", "x".repeat(3_000_000));
    let ran = folder.run_on(&["plan", "-"], &text);
    assert!(ran.status == 0 || ran.err.contains("longer than"), "{ran}");
    // what never ends is not read to its end
    let ran = folder.shell("$hv plan /dev/zero");
    assert_ne!(ran.status, 0, "{ran}");
    let ran = folder.shell("yes '# more' | $hv margins -");
    assert_ne!(ran.status, 0, "{ran}");
}

/// The ring of section 5: by p / P, with P the largest power of two not above p; ties to the lower number.
fn ring(jobs: &Jobs) -> Vec<usize> {
    let key = |&i: &usize| {
        let period = u64::from(jobs[i].0);
        (period << (16 - period.ilog2()), i)
    };
    let mut ring: Vec<usize> = (0..jobs.len()).collect();
    ring.sort_by_key(key);
    ring
}

#[test]
fn no_fit_tells_the_cores_as_they_were() {
    let folder = Folder::new();
    let mut rng = Rng(5);
    let mut told = 0;
    for _ in 0..120 {
        let jobs = rng.jobs(30);
        let (limit, start) = (rng.range(0, 3), rng.range(0, jobs.len() as u64 - 1));
        let options = [format!("--cores={limit}"), format!("--start={start}")];
        let ran = planned(&folder, &jobs, &[&options[0], &options[1]]);
        if ran.status == 1 {
            as_they_were(&folder, &jobs, limit, start as usize, &ran);
            told += 1;
        }
    }
    assert!(told > 30, "{told}");
}

/// Plans what was placed before the task that found no core, from the same start, by itself.
fn as_they_were(folder: &Folder, jobs: &Jobs, limit: u64, start: usize, ran: &Ran) {
    let first = ran.err.lines().next().unwrap_or_default();
    let task = numbers(first.split_once("takes task").expect("a task").1)[0] as usize;
    let (period, budget) = (i64::from(jobs[task].0), i64::from(jobs[task].1));
    let said = numbers(first.split_once("takes task").expect("a task").1);
    assert_eq!(said, [task as i64, budget, period], "{ran}");
    assert!(first.contains(&format!("line {}", task + 1)), "{ran}");
    let mut walk = ring(jobs);
    walk.rotate_left(start);
    let before = walk.iter().position(|&i| i == task).expect("the task");
    let mut placed = walk[..before].to_vec();
    let rows: Vec<Vec<i64>> = ran.err.lines().skip(1).map(numbers).collect();
    let rows: Vec<&Vec<i64>> = rows.iter().filter(|row| row.len() > 2).collect();
    let Some(&front) = placed.first() else {
        assert!(rows.is_empty() && limit == 0, "{ran}");
        return;
    };
    placed.sort_unstable();
    let few: Vec<(u16, u16)> = placed.iter().map(|&i| jobs[i]).collect();
    let front = ring(&few).iter().position(|&i| placed[i] == front);
    let options = [
        format!("--cores={limit}"),
        format!("--start={}", front.expect("the first")),
    ];
    let plan = planned(folder, &few, &[&options[0], &options[1]]).ends(0);
    let sheet = Sheet::read(&plan.bytes);
    assert_eq!(rows.len(), sheet.cores.len(), "{ran}");
    for (k, row) in rows.iter().enumerate() {
        let on = (0..placed.len()).filter(|&i| usize::from(sheet.tasks[i].core) == k);
        let mut expected = vec![k as i64, sheet.load(k as u8) as i64];
        expected.extend(on.map(|i| placed[i] as i64));
        let mut row = (*row).clone();
        row[2..].sort_unstable();
        assert_eq!(row, expected, "{ran}");
    }
}

#[test]
fn all_starts_are_those_tried_singly() {
    let folder = Folder::new();
    let mut rng = Rng(11);
    let mut seen = [0; 3];
    for _ in 0..60 {
        let jobs = rng.jobs(16);
        // as many cores as the first start takes, or one less, so that some starts fit and some do not
        let first = planned(&folder, &jobs, &[]);
        let limit = match first.status {
            0 => u64::from(first.bytes[6]) - rng.range(0, 1),
            _ => 8,
        };
        let limit = format!("--cores={limit}");
        folder.write("a.jobs", text_of(&jobs));
        let words = ["plan", "a.jobs", "--all-starts", &limit, "-o", "a.tsh"];
        let all = folder.run(&words);
        let single = |start: usize| planned(&folder, &jobs, &[&limit, &format!("--start={start}")]);
        let singles: Vec<Ran> = (0..jobs.len()).map(single).collect();
        seen[compared(&folder, &all, &singles)] += 1;
        let _ = std::fs::remove_file(folder.path("a.tsh"));
    }
    assert!(seen.iter().all(|&count| count > 0), "{seen:?}");
}

/// What a single start that finds no core tells: the loads, the line and the task.
fn refused(single: &Ran) -> Vec<i64> {
    let mut lines = single.err.lines();
    let first = lines.next().unwrap_or_default();
    let after = |words: &str| numbers(first.split_once(words).expect("a number").1)[0];
    let rows = lines.map(numbers).filter(|row| row.len() > 2);
    let mut told: Vec<i64> = rows.map(|row| row[1]).collect();
    told.extend([after(", line "), after("takes task ")]);
    told
}

/// What a single start that finds a plan tells: the cores and their loads.
fn fitted(single: &Ran) -> Vec<i64> {
    let sheet = Sheet::read(&single.bytes);
    let cores = sheet.cores.len();
    let mut told = vec![cores as i64];
    told.extend((0..cores as u8).map(|core| sheet.load(core) as i64));
    told
}

/// Holds the table of all starts against the single plans; 0 where none fits, 1 where some do, 2 where all do.
fn compared(folder: &Folder, all: &Ran, singles: &[Ran]) -> usize {
    let rows = all
        .out
        .lines()
        .skip_while(|line| !line.starts_with("start"));
    let rows: Vec<&str> = rows.skip(1).take(singles.len()).collect();
    assert_eq!(rows.len(), singles.len(), "{all}");
    for (start, (row, single)) in rows.iter().zip(singles).enumerate() {
        let told = match single.status {
            0 => fitted(single),
            _ => refused(single),
        };
        assert_eq!(numbers(row), [&[start as i64], &told[..]].concat(), "{all}");
    }
    let cores = |start: &usize| singles[*start].bytes[6];
    let fitting = (0..singles.len()).filter(|&start| singles[start].status == 0);
    let fitting: Vec<usize> = fitting.collect();
    let Some(first) = fitting.iter().min_by_key(|start| cores(start)) else {
        assert_eq!(all.status, 1, "{all}");
        assert!(all.err.contains("refused 15"), "{all}");
        assert!(!folder.path("a.tsh").exists());
        return 0;
    };
    let said = all.out.lines().find(|line| line.contains("fewest"));
    let mut expected = vec![i64::from(cores(first))];
    let fewest = fitting.iter().filter(|start| cores(start) == cores(first));
    expected.extend(fewest.map(|&start| start as i64));
    assert_eq!(
        numbers(said.expect("which need the fewest")),
        expected,
        "{all}"
    );
    assert_eq!(folder.read("a.tsh"), singles[*first].bytes);
    same_as_sheet(&all.out, &Sheet::read(&singles[*first].bytes));
    if fitting.len() == singles.len() {
        2
    } else {
        1
    }
}

#[test]
fn the_examples_with_all_starts() {
    let folder = Folder::new();
    for name in ["full-core", "ten-tasks", "sixty-four"] {
        let jobs = example(&format!("{name}.jobs"));
        let jobs = jobs.to_str().expect("text");
        let all = folder.run(&["plan", jobs, "--all-starts", "-o", "a.tsh"]);
        let single =
            |start: usize| folder.run(&["plan", jobs, "-o", "-", "--start", &start.to_string()]);
        let count = [("full-core", 2), ("ten-tasks", 10), ("sixty-four", 64)];
        let count = count.iter().find(|(other, _)| *other == name);
        let count = count.expect("a count").1;
        let rows = all
            .out
            .lines()
            .skip_while(|line| !line.starts_with("start"));
        for (start, row) in rows.skip(1).take(count).enumerate() {
            let sheet = Sheet::read(&single(start).ends(0).bytes);
            let given = numbers(row);
            assert_eq!(given[1], sheet.cores.len() as i64);
            let loads = (0..sheet.cores.len() as u8).map(|core| sheet.load(core) as i64);
            assert!(loads.eq(given[2..].iter().copied()), "{row}");
        }
    }
}

#[test]
fn what_is_left_of_an_old_file() {
    let folder = Folder::new();
    folder.write("fit.jobs", "5 1\n9 7\n");
    folder.write("bad.jobs", "5 1\n9 x\n");
    folder.write("full.jobs", "5 5\n".repeat(9));
    folder.write("old.tsh", "what was there");
    for words in [
        &["plan", "bad.jobs", "-o", "old.tsh"][..],
        &["plan", "full.jobs", "-o", "old.tsh"],
        &["plan", "full.jobs", "-o", "old.tsh", "--all-starts"],
        &["plan", "fit.jobs", "-o", "old.tsh", "--start", "2"],
        &["plan", "fit.jobs", "-o", "old.tsh", "--cores", "0"],
        &["plan", "fit.jobs", "-o", "old.tsh", "--cores", "9"],
        &["plan", "none.jobs", "-o", "old.tsh"],
        &["move", "fit.jobs", "-o", "old.tsh"],
        &["move", "none.jobs", "-o", "old.tsh"],
        &["run", "fit.jobs", "-o", "old.tsh"],
        &["draw", "none.tsh", "-o", "old.tsh"],
        &["run", "--bench", "bad.jobs", "-o", "old.tsh"],
        &[
            "run", "--bench", "fit.jobs", "--calls", "bad.jobs", "-o", "old.tsh",
        ],
        &[
            "draw", "--bench", "fit.jobs", "--calls", "bad.jobs", "-o", "old.tsh",
        ],
    ] {
        let ran = folder.run(words);
        assert_ne!(ran.status, 0, "{ran}");
        assert_eq!(folder.read("old.tsh"), b"what was there", "{ran}");
    }
    let there = ["bad.jobs", "fit.jobs", "full.jobs", "old.tsh"];
    assert_eq!(folder.names(), there, "nothing is left beside");
    folder.run(&["plan", "fit.jobs", "-o", "old.tsh"]).ends(0);
    assert_eq!(folder.read("old.tsh"), full_core().by_number());
    assert_eq!(folder.names(), there, "nothing is left beside");
}

#[test]
fn a_sheet_on_standard_output_stands_alone() {
    let folder = Folder::new();
    let ran = planned(&folder, &[(5, 1), (9, 7)], &["--all-starts"]).ends(0);
    assert_eq!(ran.bytes, full_core().by_number());
    let ran = planned(
        &folder,
        &[(5, 1), (9, 9), (7, 7)],
        &["--cores=1", "--all-starts"],
    );
    ran.ends(1).prints_nothing();
}

/// The margin of section 11.
fn margin(jobs: &Jobs, task: usize) -> i64 {
    let (period, budget) = (i64::from(jobs[task].0), i64::from(jobs[task].1));
    let above: Vec<(i64, i64)> = (0..jobs.len())
        .filter(|&i| (jobs[i].0, i) < (jobs[task].0, task))
        .map(|i| (i64::from(jobs[i].0), i64::from(jobs[i].1)))
        .collect();
    let demand = |t: i64| {
        budget
            + above
                .iter()
                .map(|(p, e)| e * ((t + p - 1) / p))
                .sum::<i64>()
    };
    let least = (1..=period).find(|&t| demand(t) <= t);
    period - least.unwrap_or_else(|| demand(period))
}

#[test]
fn margins_by_their_definition() {
    let folder = Folder::new();
    let mut rng = Rng(3);
    let fixed: [&Jobs; 5] = [
        &[(5, 2), (7, 4), (35, 1)],
        &[(5, 2), (7, 4), (34, 1)],
        &[(4, 1), (4, 2), (3, 1)],
        &[(60_000, 60_000)],
        &[(1, 1)],
    ];
    let mut lists: Vec<Vec<(u16, u16)>> = fixed.iter().map(|jobs| jobs.to_vec()).collect();
    lists.extend((0..60).map(|_| rng.jobs(12)));
    let mut seen = [0; 2];
    for jobs in lists {
        let ran = folder.run_on(&["margins", "-"], text_of(&jobs));
        let rows = table(&ran.out, MARGINS);
        assert_eq!(rows.len(), jobs.len(), "{ran}");
        for (i, row) in rows.iter().enumerate() {
            let (p, e) = (i64::from(jobs[i].0), i64::from(jobs[i].1));
            assert_eq!(row.task, i as i64);
            assert_eq!(row.rest, [i as i64 + 1, p, e, margin(&jobs, i)], "{ran}");
        }
        let below = rows.iter().filter(|row| row.rest[3] < 0).count();
        assert_eq!(ran.status, i32::from(below > 0), "{ran}");
        seen[usize::from(below > 0)] += 1;
        ran.tells_nothing();
    }
    assert!(seen.iter().all(|&count| count > 5), "{seen:?}");
}

#[test]
fn the_latest_job_of_all() {
    let folder = Folder::new();
    let text = format!("{}60000 60000 last\n", "59999 59999\n".repeat(63));
    let ran = folder.run_on(&["margins", "-"], text).ends(1);
    let rows = table(&ran.out, MARGINS);
    assert_eq!(rows[63].rest, [64, 60_000, 60_000, -7_559_874]);
    assert_eq!(rows[63].name, "last");
}

#[test]
fn damaged_lists_never_break_it() {
    let folder = Folder::new();
    let mut rng = Rng(41);
    let good = "# period budget name\n5 1 key\n9 7 main receiver # x\n\n30 2\r\n40 1 last\n";
    let mut seen = [0; 2];
    for _ in 0..500 {
        let mut bytes = good.as_bytes().to_vec();
        rng.damage(&mut bytes);
        let plan = folder.run_on(&["plan", "-"], &bytes);
        let margins = folder.run_on(&["margins", "-"], &bytes);
        let bench = folder.run_on(&["run", "--bench", "-", "--ticks", "3"], &bytes);
        let refused = |ran: &Ran| {
            assert!(ran.status < 2, "{ran}");
            let refused = ran.status == 1 && ran.out.is_empty() && !ran.err.contains("No fit");
            assert!(
                !refused || ran.err.contains("standard input, line "),
                "{ran}"
            );
            refused
        };
        let all = [&plan, &margins, &bench].map(refused);
        assert_eq!(all, [all[0]; 3], "{plan}{margins}{bench}");
        seen[usize::from(all[0])] += 1;
    }
    assert!(seen.iter().all(|&count| count > 50), "{seen:?}");
}
