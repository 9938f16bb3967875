//! The margins of lists.

use crate::form::{expect, hex, refused, File};
use crate::plan::jobs;
use reference::margin;

pub fn file() -> File {
    let about = ["Margins: a job list, then a task number and the answer, several times."];
    let mut to = Margins(File::new("margin.txt", &about));
    margins(&mut to);
    refusals(&mut to);
    to.0
}

struct Margins(File);

impl Margins {
    /// Of a list, what these numbers are answered: a margin or a refusal.
    fn asked(&mut self, title: &str, list: &[u8], said: &[(u64, &str)]) {
        let mut lines = vec![format!("list {}", hex(list))];
        for &(number, said) in said {
            let answer = margin(list, number);
            let answered = match answer.refusal {
                0 => answer.margin.to_string(),
                refusal => refused(refusal, answer.place as u64),
            };
            expect(title, said, &answered);
            lines.push(format!("margin {number} -> {said}"));
        }
        self.0.case(title, &lines);
    }

    /// Of jobs, the margins of all by number.
    fn all(&mut self, title: &str, list: &[(u16, u16)], margins: &[i32]) {
        let said: Vec<String> = margins.iter().map(i32::to_string).collect();
        let said: Vec<(u64, &str)> = (0..).zip(said.iter().map(String::as_str)).collect();
        assert_eq!(said.len(), list.len(), "{title}");
        self.asked(title, &jobs(list), &said);
    }
}

fn margins(to: &mut Margins) {
    to.0.heading(&["Margins of all tasks of a list"]);
    to.all("One task with no tick to spare", &[(1, 1)], &[0]);
    to.all(
        "One task with the most ticks to spare",
        &[(60_000, 1)],
        &[59_999],
    );
    to.all(
        "A full core: 1 every 2, 2 every 4",
        &[(2, 1), (4, 2)],
        &[1, 0],
    );
    to.all(
        "Above, below and of zero",
        &[(5, 2), (7, 4), (35, 1)],
        &[3, -1, 0],
    );
    to.all(
        "The last period one tick shorter",
        &[(5, 2), (7, 4), (34, 1)],
        &[3, -1, -1],
    );
    to.all(
        "The same numbers backwards: priority goes by period",
        &[(35, 1), (7, 4), (5, 2)],
        &[0, -1, 3],
    );
    to.all(
        "A tie: of one period the lower number is above",
        &[(4, 1), (4, 2), (3, 1)],
        &[2, -1, 2],
    );
    to.all(
        "A tie of three, each waits for those before it",
        &[(9, 2), (9, 3), (9, 4)],
        &[7, 4, 0],
    );
    to.all(
        "A tie, with one tick too many for the last",
        &[(9, 2), (9, 3), (9, 5)],
        &[7, 4, -1],
    );
    to.all(
        "The least t counts: the demand of task 1 is 3 at t = 3, and not at its period",
        &[(4, 1), (20, 2)],
        &[3, 17],
    );
    to.all(
        "The job above comes twice before the least t, 8",
        &[(5, 2), (20, 4)],
        &[3, 12],
    );
    to.all(
        "t / p is whole at the least t: 5 / 5 counts once",
        &[(5, 2), (8, 3)],
        &[3, 3],
    );
    to.all(
        "One tick more, and it counts twice: demand 8 at 8",
        &[(5, 2), (8, 4)],
        &[3, 0],
    );
    to.all(
        "Far too much: the demand of task 2 is 6 + 6 * 1 + 3 * 2 at 6",
        &[(1, 1), (2, 2), (6, 6)],
        &[0, -2, -12],
    );
    let mut most = vec![(59_999, 59_999); 63];
    most.push((60_000, 60_000));
    to.asked(
        "64 tasks: the lowest margin that there is, and the first, middle and last of a tie",
        &jobs(&most),
        &[
            (63, "-7559874"),
            (0, "0"),
            (31, "-1859969"),
            (62, "-3719938"),
        ],
    );
}

fn refusals(to: &mut Margins) {
    let good = jobs(&[(5, 2), (7, 4), (35, 1)]);
    to.0.heading(&["Refusals"]);
    let said = |refusal: u8, place: u64| refused(refusal, place);
    to.asked("5, one byte", &[5], &[(0, &said(5, 0))]);
    to.asked(
        "5, the last byte is missing",
        &good[..11],
        &[(0, &said(5, 0)), (2, &said(5, 0))],
    );
    to.asked(
        "4, 65 entries",
        &jobs(&[(65, 1); 65]),
        &[(0, &said(4, 0)), (64, &said(4, 0))],
    );
    to.asked(
        "7, a period of 0",
        &jobs(&[(5, 2), (0, 4)]),
        &[(0, &said(7, 1)), (1, &said(7, 1))],
    );
    to.asked(
        "7, a period of 60,001",
        &jobs(&[(60_001, 2)]),
        &[(0, &said(7, 0))],
    );
    to.asked(
        "8, a budget of 0",
        &jobs(&[(5, 0), (7, 4)]),
        &[(1, &said(8, 0))],
    );
    to.asked(
        "8, a budget above the period",
        &jobs(&[(5, 2), (7, 8)]),
        &[(0, &said(8, 1))],
    );
    to.asked(
        "17, numbers that the list does not have",
        &good,
        &[
            (3, &said(17, 0)),
            (64, &said(17, 0)),
            (256, &said(17, 0)),
            (1 << 32, &said(17, 0)),
            (u64::MAX, &said(17, 0)),
        ],
    );
    to.asked("17, an empty list has no task 0", &[], &[(0, &said(17, 0))]);

    to.0.heading(&["Two things are wrong: the first is named"]);
    let many = [jobs(&[(65, 1); 65]), vec![0]].concat();
    to.asked("5 before 4", &many, &[(0, &said(5, 0))]);
    let mut zero = vec![(65, 1); 65];
    zero[0] = (0, 1);
    to.asked("4 before 7", &jobs(&zero), &[(0, &said(4, 0))]);
    to.asked(
        "7 at the last task before 8 at the first",
        &jobs(&[(5, 0), (0, 1)]),
        &[(0, &said(7, 1))],
    );
    to.asked("8 before 17", &jobs(&[(5, 0)]), &[(1, &said(8, 0))]);
}
