//! Runs of several cores, ticked together.

use crate::form::{expect, hex, refused, File};
use crate::plan::jobs;
use crate::run::{answer, call};
use crate::sheets::*;
use reference::{start_list, start_sheet, tick_row, Core, CoreAnswer};

pub fn file() -> File {
    let about = [
        "Rows: a sheet or a job list, starts that make the row, then calls at a row position and ticks of the whole row.",
        "21 is in none of them, as in run.txt.",
    ];
    let mut to = Rows(File::new("row.txt", &about));
    rows(&mut to);
    to.0
}

struct Rows(File);

impl Rows {
    /// A row of these cores of a sheet; `calls` as in `run`.
    fn sheet(&mut self, title: &str, sheet: Bytes, cores: &[u64], calls: &str) {
        let start = |&core: &u64| (format!("start {core}"), start_sheet(&sheet.0, core));
        let head = format!("sheet {}", hex(&sheet.0));
        self.run(title, head, cores.iter().map(start).collect(), calls);
    }

    /// A row of this many states of a list on the bench.
    fn list(&mut self, title: &str, list: &[u8], many: usize, calls: &str) {
        let started = ("start".to_string(), start_list(list));
        let head = format!("list {}", hex(list));
        self.run(title, head, vec![started; many], calls);
    }

    /// The calls have a row position before a word of `run::call`, or they are
    /// row:bytes=bytes, with ! and 24 for a row that is refused.
    fn run(&mut self, title: &str, head: String, starts: Vec<(String, CoreAnswer)>, calls: &str) {
        let mut lines = vec![head];
        let mut row: Vec<Core> = Vec::new();
        for (start, started) in starts {
            expect(title, "accepted", &answer(&started));
            lines.push(format!("{start} -> accepted"));
            row.push(started.core);
        }
        for word in calls.split_whitespace() {
            let (position, rest) = word.split_once(':').expect("a position or row");
            lines.push(match position {
                "row" => ticked(title, &mut row, rest),
                _ => {
                    let at: usize = position.parse().expect("a row position");
                    format!("at {at} {}", call(title, &mut row[at], rest))
                }
            });
        }
        self.0.case(title, &lines);
    }
}

fn ticked(title: &str, row: &mut [Core], word: &str) -> String {
    let (lent, said) = match word.split_once('=') {
        Some((lent, said)) => (lent, said.to_string()),
        None => {
            let (lent, number) = word.split_once('!').expect("bytes or a refusal");
            (lent, refused(number.parse().expect("a refusal"), 0))
        }
    };
    let mut bytes: Vec<u8> = match lent {
        "-" => Vec::new(),
        _ => (0..lent.len() / 2)
            .map(|i| u8::from_str_radix(&lent[2 * i..2 * i + 2], 16).expect("hexadecimal"))
            .collect(),
    };
    let answer = tick_row(row, &mut bytes);
    let answered = match answer.refusal {
        0 => hex(&bytes),
        refusal => {
            expect(title, lent, &hex(&bytes));
            refused(refusal, answer.place)
        }
    };
    expect(&format!("{title}: {word}"), &said, &answered);
    format!("row {lent} -> {said}")
}

fn rows(to: &mut Rows) {
    to.sheet(
        "Both cores of a sheet; a third answer byte keeps what it held",
        five(2),
        &[0, 1],
        "0:r3 0:r4 1:r2 1:r0 row:aaaaaa=0302aa row:aaaaaa=0400aa row:aaaaaa=ff00aa",
    );
    to.sheet(
        "A refused row is no tick: task 3 may be released after the fourth accepted row",
        five(1),
        &[0, 1],
        "0:r3 row:0000=03ff row:00!24 row:-!24 row:0000=ffff row:0000=ffff 0:r3!18:3 row:00!24 0:r3!18:3 row:0000=ffff 0:r3 row:0000=03ff",
    );
    to.sheet(
        "An empty row, with no answer byte and with one",
        five(1),
        &[],
        "row:-=- row:aa=aa",
    );
    to.sheet(
        "No answer byte for one core",
        pair(1),
        &[0],
        "0:r0 row:-!24 row:aa=00 row:aa=ff",
    );
    to.sheet(
        "Ticks of one core by itself between the rows",
        five(1),
        &[1, 0],
        "0:r0 1:r1 row:0000=0001 0:t0 0:r2 0:t2 row:0000=0001 1:t- 0:f0 row:0000=ffff",
    );
    to.sheet(
        "One core twice in a row: two states, each by itself",
        pair(1),
        &[0, 0],
        "0:r0 1:r1 row:0000=0001 0:r0!18:0 1:r0 row:0000=ff00 row:0000=ff01",
    );
    to.sheet(
        "Strokes in a row: task 0 of core 1 goes on in its stroke, task 1 of core 0 in its own",
        five(3),
        &[0, 1],
        "0:r1 1:r0 row:0000=0100 0:r3 1:r2 row:0000=0100 row:0000=0300 row:0000=ff00 row:0000=ff02 row:0000=ff00",
    );
    to.list(
        "Two cores of 64 tasks on the bench: the last task alone, and again after its period",
        &jobs(&[(2, 1); 64]),
        2,
        "0:r63 row:0000=3fff 0:r63!18:63 1:r0 row:0000=ff00 0:r63 0:r32 row:0000=20ff row:0000=3fff",
    );
}
