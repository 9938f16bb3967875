//! The listing call and its buffer. What an accepted sheet lists stands beside
//! every one in the files of the checker.

use crate::form::{expect, hex, refused, File};
use crate::sheets::*;
use reference::list_into;

pub fn file() -> File {
    let about =
        ["The listing call: any bytes and the bytes of the buffer; the answer and the text."];
    let mut to = Listings(File::new("list.txt", &about));
    listings(&mut to);
    to.0
}

struct Listings(File);

impl Listings {
    /// Bytes with these lines, or where there are none with refusal 16.
    fn case(&mut self, title: &str, sheet: Bytes, room: usize, said: &[&str]) {
        let mut out = vec![0; room];
        let answer = list_into(&sheet.0, &mut out);
        let mut lines = vec![format!("sheet {}", hex(&sheet.0)), format!("room {room}")];
        if said.is_empty() {
            assert_eq!((answer.refusal, answer.place), (16, 0), "{title}");
            lines.push(refused(16, 0));
        } else {
            assert_eq!((answer.refusal, answer.place), (0, 0), "{title}");
            let text: String = said.iter().map(|line| format!("{line}\n")).collect();
            out.truncate(answer.length as usize);
            expect(title, &text, &String::from_utf8(out).expect("ASCII"));
            lines.push(format!("accepted length {}", answer.length));
            lines.extend(said.iter().map(|line| format!("| {line}")));
        }
        self.0.case(title, &lines);
    }
}

fn listings(to: &mut Listings) {
    to.case("No tasks", empty(1), 8192, &["TSH 1 tasks 0 cores 0"]);
    to.case(
        "Two tasks",
        pair(1),
        8192,
        &[
            "TSH 1 tasks 2 cores 1",
            "task 0 core 0 period 5 budget 1 factor 1 within 4",
            "task 1 core 0 period 9 budget 7 factor 2 within 9",
            "core 0 pivot 9 divisor 2 load 1000",
        ],
    );
    to.case(
        "Version 2: by the old numbers",
        five(2),
        8192,
        &[
            "TSH 2 tasks 5 cores 2",
            "task 0 core 1 period 9 budget 7 factor 2 within 9",
            "task 1 core 0 period 8 budget 2 factor 2 within 8",
            "task 2 core 1 period 5 budget 1 factor 1 within 4",
            "task 3 core 0 period 4 budget 1 factor 1 within 4",
            "task 4 core 0 period 8 budget 1 factor 2 within 8",
            "core 0 pivot 4 divisor 1 load 625",
            "core 1 pivot 9 divisor 2 load 1000",
        ],
    );
    to.case(
        "Version 3: stroke lengths are not listed, and the load is that of version 1",
        sheet(3, &[(10, 2, 0, 1, 1), (20, 9, 0, 9, 2)], &[(10, 1)]),
        8192,
        &[
            "TSH 3 tasks 2 cores 1",
            "task 0 core 0 period 10 budget 2 factor 1 within 10",
            "task 1 core 0 period 20 budget 9 factor 2 within 20",
            "core 0 pivot 10 divisor 1 load 650",
        ],
    );
    to.case(
        "A refused sheet has one line, and the call is accepted",
        pair(1).budget(1, 8),
        8192,
        &["refused 14 place 64"],
    );
    to.case("No bytes", empty(1).cut(0), 8192, &["refused 1 place 0"]);
    to.case("16, a buffer of 8,191 bytes", pair(1), 8191, &[]);
    to.case("16, a refused sheet", pair(1).budget(1, 8), 8191, &[]);
    to.case("16, no buffer", empty(1), 0, &[]);
}
