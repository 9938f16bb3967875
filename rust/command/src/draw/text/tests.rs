use std::collections::BTreeSet;

use super::{shortened, text};
use crate::draw::rows::samples::{bench, made, pictures, Rng, Truth};
use crate::judge;
use crate::log::{Answer, Call, Entry, Log};

const WIDTHS: [usize; 6] = [40, 41, 57, 80, 100, 1000];

/// A row of a picture: the number of its task, or none for other calls.
type Number = Option<u8>;

/// What a picture shows. Ticks are counted from 1.
#[derive(Debug, Default, PartialEq, Eq)]
struct Shown {
    runs: BTreeSet<(Number, usize)>,
    idle: BTreeSet<usize>,
    pending: BTreeSet<(Number, usize)>,
    late: BTreeSet<(Number, usize)>,
    marks: BTreeSet<(&'static str, Number, usize)>,
}

impl Shown {
    /// What the picture of a log must show.
    fn expected(log: &Log) -> Shown {
        let truth = Truth::of(log);
        let listed = |number: &u8| log.tasks.iter().any(|task| task.number == *number);
        let row = |(number, tick): (u8, usize)| (Some(number).filter(listed), tick);
        let mut marks = BTreeSet::new();
        for (kind, number, moment, _) in truth.marks.into_keys() {
            let kinds = ["release", "due", "finish", "refused"];
            let kind = kinds.into_iter().find(|known| *known == kind);
            marks.extend(kind.map(|kind| (kind, number.filter(listed), moment)));
        }
        let late = judge::jobs(log).into_iter().filter(|job| job.late);
        marks.extend(late.map(|job| ("missed", Some(log.tasks[job.row].number), job.due)));
        Shown {
            runs: truth.runs.into_iter().map(row).collect(),
            idle: truth.idle,
            pending: truth.pending.into_iter().map(row).collect(),
            late: truth.late.into_iter().map(row).collect(),
            marks,
        }
    }

    /// What the lines of one core's bands show.
    fn read(lines: &[&str]) -> Shown {
        let mut shown = Shown::default();
        let (mut label, mut first) = (0, 0);
        let mut row = None;
        for line in lines.iter().filter(|line| !line.is_empty()) {
            if is_axis(line) {
                label = line.len() - line.trim_start().len();
                first = axis(line, label);
                continue;
            }
            let (name, columns) = line.split_at(label.min(line.len()));
            let begins = !name.starts_with([' ', 'p']);
            if begins {
                row = name
                    .split(' ')
                    .next()
                    .and_then(|number| number.parse().ok());
            }
            for (column, letter) in columns.chars().enumerate() {
                shown.take((letter, begins), row, first + column);
            }
        }
        shown
    }

    /// A letter, whether it is in the first line of its row, and the moment before its column.
    fn take(&mut self, letter: (char, bool), row: Number, moment: usize) {
        let tick = (row, moment + 1);
        let kinds: &[&str] = match letter {
            ('=', true) => {
                self.idle.insert(moment + 1);
                &[]
            }
            ('#' | '%', true) => {
                self.runs.insert(tick);
                &[]
            }
            ('-', true) => {
                self.pending.insert(tick);
                &[]
            }
            ('^', false) => &["release"],
            ('|', false) => &["due"],
            ('!', false) => &["due", "missed"],
            ('+', false) => &["release", "due"],
            ('*', false) => &["release", "due", "missed"],
            ('o', _) => &["finish"],
            ('x', _) => &["refused"],
            ('&', _) => &["finish", "refused"],
            ('.' | '!', true) | (' ', _) => &[],
            letter => panic!("{letter:?}"),
        };
        if matches!(letter, ('%' | '!', true)) {
            self.late.insert(tick);
        }
        let marks = kinds.iter().map(|kind| (*kind, row, moment));
        self.marks.extend(marks);
    }
}

fn is_axis(line: &str) -> bool {
    line.starts_with(' ')
        && line
            .chars()
            .all(|letter| letter == ' ' || letter.is_ascii_digit())
}

/// The first moment of an axis. Each number stands where its moment is.
fn axis(line: &str, label: usize) -> usize {
    let mut words = line.split(' ').filter(|word| !word.is_empty());
    let first: usize = words.next().unwrap().parse().unwrap();
    for word in words {
        let number: usize = word.parse().unwrap();
        let at = label + number - first;
        assert_eq!(
            line.get(at - 1..at + word.len()),
            Some(format!(" {word}").as_str())
        );
    }
    first
}

/// The lines of the bands of a picture of one core.
fn bands(picture: &str) -> Vec<&str> {
    let lines = picture.lines().skip_while(|line| !is_axis(line));
    lines
        .take_while(|line| !line.starts_with("ticks "))
        .collect()
}

#[test]
fn columns_show_what_the_log_has() {
    for log in pictures().into_iter().flatten() {
        for width in WIDTHS {
            let picture = text(std::slice::from_ref(&log), width);
            let shown = Shown::read(&bands(&picture));
            assert_eq!(shown, Shown::expected(&log), "{width}\n{picture}");
        }
    }
}

#[test]
fn lines_are_ascii_and_no_wider_than_told() {
    for logs in pictures() {
        for width in WIDTHS.into_iter().chain([0, 39]) {
            let picture = text(&logs, width);
            assert!(picture
                .bytes()
                .all(|byte| matches!(byte, b' '..=b'~' | b'\n')));
            let widest = picture.lines().map(str::len).max();
            assert!(widest <= Some(width.max(40)), "{picture}");
            assert!(!picture.lines().any(|line| line.ends_with(' ')));
        }
    }
}

#[test]
fn what_follows_the_last_tick_has_a_column() {
    for ticks in 0..=90 {
        let mut log = bench(&mut Rng(ticks as u64), ticks);
        log.entries.push(Entry {
            call: Call::Release(log.tasks[0].number),
            answer: Answer::Refused(18, 0),
        });
        let picture = text(std::slice::from_ref(&log), 80);
        assert!(picture.lines().all(|line| line.len() <= 80), "{picture}");
        let shown = Shown::read(&bands(&picture));
        assert_eq!(shown, Shown::expected(&log), "{picture}");
    }
}

#[test]
fn bands_begin_at_whole_tens_and_take_the_width() {
    let log = bench(&mut Rng(5), 500);
    let picture = text(&[log], 100);
    let lines = bands(&picture);
    let axes = lines.iter().filter(|line| is_axis(line));
    let firsts: Vec<usize> = axes
        .map(|line| line.split_whitespace().next().unwrap().parse().unwrap())
        .collect();
    assert!(firsts.len() > 4);
    assert!(firsts.iter().all(|first| first % 10 == 0));
    assert!(lines.iter().any(|line| line.len() > 85));
}

#[test]
fn a_run_is_drawn_so() {
    let log = &made()[0];
    let picture = text(std::slice::from_ref(log), 80);
    let (front, _) = picture.split_once("\nticks ").unwrap();
    let expected = "\
core 7: 4 tasks, 4 ticks
                 0   4
1                ....
p 4 e 2 w 2
0                #-##
p 4 e 3 w 4      ^^  |
                    o
2                ....
p 4 e 65535 w 0
0                ....
p 4 e 0 w 1
idle             .=..
";
    assert_eq!(front, expected);
}

#[test]
fn labels_are_shortened_to_printable_ascii() {
    assert_eq!(shortened("0 key", 5), "0 key");
    assert_eq!(shortened("0 keyboard", 7), "0 key..");
    assert_eq!(shortened("0 a bee", 6), "0 a..");
    assert_eq!(shortened("接收机\u{7}", 9), "????");
    assert_eq!(shortened("接收机接收机", 5), "???..");
    assert_eq!(shortened("key", 0), "..");
}
