//! The checker on sheets of version 2.

use crate::check::{self, Checks};
use crate::form::File;
use crate::sheets::*;

pub fn file() -> File {
    let about = [
        "The checker on sheets of version 2: bytes, the answer, and of an accepted sheet the listing.",
        "The places of refused tasks are positions. 9 cannot come.",
    ];
    let mut to = Checks {
        file: File::new("check-2.txt", &about),
        version: 2,
    };
    check::accepted(&mut to);
    accepted(&mut to);
    check::rules_1_to_6(&mut to);
    spare(&mut to);
    check::rules_7_and_8(&mut to);
    order(&mut to);
    check::rules_10_to_14(&mut to);
    check::two_rules(&mut to);
    two_rules(&mut to);
    check::two_places(&mut to);
    to.file
}

/// Four tasks of one kind, the first `count` positions on core 0.
fn halves(count: u8) -> Bytes {
    let tasks = [0, 0, 1, 1].map(|core| (4, 1, core, 1, 1));
    sheet(2, &tasks, &[(4, 1); 2])
        .count(0, count)
        .count(1, 4 - count)
}

fn accepted(to: &mut Checks) {
    to.heading("Accepted sheets: the order of version 2");
    to.accepted("Four tasks of one kind, two on each core", halves(2));
    to.accepted(
        "The same records, one on core 0 and three on core 1",
        halves(1),
    );
    to.accepted(
        "Old numbers backwards: core 0 has tasks 3 and 2, core 1 has tasks 1 and 0",
        sheet(
            2,
            &[
                (9, 1, 1, 1, 1),
                (8, 1, 1, 1, 1),
                (7, 1, 0, 1, 1),
                (6, 1, 0, 1, 1),
            ],
            &[(6, 1), (8, 1)],
        ),
    );
    to.accepted(
        "A core's first task may have a shorter period than the last of the core before",
        sheet(2, &[(9, 9, 0, 1, 1), (2, 2, 1, 1, 1)], &[(9, 1), (2, 1)]),
    );
}

fn spare(to: &mut Checks) {
    to.heading("6 Spare: byte 5 of a task record and byte 3 of a core record");
    to.refused(
        "Byte 5 of task record 0, a stroke length of version 3",
        6,
        13,
        five(2).stroke(0, 1),
    );
    to.refused("Byte 5 of task record 4", 6, 53, five(2).stroke(4, 255));
    to.refused(
        "Byte 3 of a core record, behind its task count",
        6,
        31,
        pair(2).spare(0, [2, 1]),
    );
    to.refused(
        "A version 3 sheet with the version 2",
        6,
        13,
        pair(3).version(2),
    );
}

fn order(to: &mut Checks) {
    to.heading("23 Order: the old numbers are not each of 0 to n - 1 once");
    to.refused("2 stands twice and 0 nowhere", 23, 0, five(2).core(4, 2));
    to.refused(
        "An old number is 5, of five tasks",
        23,
        0,
        five(2).core(0, 5),
    );
    to.refused("An old number is 255", 23, 0, five(2).core(2, 255));
    to.refused("Old numbers from 1", 23, 0, pair(2).core(0, 1).core(1, 2));
    to.refused(
        "One task with the old number 1",
        23,
        0,
        one(2, (4, 1), 1, (4, 1)).core(0, 1),
    );
    to.refused(
        "A version 1 sheet with the version 2: all old numbers are 0",
        23,
        0,
        three(1).version(2),
    );

    to.heading("23 Order: the task counts do not add up to n");
    to.refused(
        "The task counts make 6, of five tasks",
        23,
        0,
        five(2).count(1, 3),
    );
    to.refused(
        "The task counts make 4, of five tasks",
        23,
        0,
        five(2).count(0, 2),
    );
    to.refused(
        "Both task counts are 0",
        23,
        0,
        five(2).count(0, 0).count(1, 0),
    );
    to.refused(
        "Task counts of 255 and 5 make 260, which is 4 in a byte",
        23,
        0,
        halves(2).count(0, 255).count(1, 5),
    );
    to.refused("Tasks but no cores", 23, 0, pair(2).counts(2, 0).cut(28));
    to.refused(
        "One core, with a task count, and no tasks",
        23,
        0,
        sheet(2, &[], &[(4, 1)]).count(0, 1),
    );

    to.heading("23 Order: a core's tasks are not in order of priority");
    to.refused(
        "The last period of core 0 is shorter than the one before",
        23,
        0,
        five(2).period(2, 7),
    );
    to.refused(
        "The first period of core 0 is longer than the next",
        23,
        0,
        five(2).period(0, 9),
    );
    to.refused(
        "The first period of core 1 is longer than the next",
        23,
        0,
        five(2).period(3, 10),
    );
    to.refused(
        "Of one period, the higher old number stands first",
        23,
        0,
        five(2).core(1, 4).core(2, 1),
    );
    to.refused(
        "Task counts 5 and 0: the period 5 follows an 8",
        23,
        0,
        five(2).count(0, 5).count(1, 0),
    );
    to.refused(
        "Task counts 2 and 3: the period 5 follows an 8 on core 1",
        23,
        0,
        five(2).count(0, 2).count(1, 3),
    );
}

fn two_rules(to: &mut Checks) {
    to.refused(
        "8 at the last position before 23",
        8,
        4,
        five(2).budget(4, 0).core(0, 0),
    );
    to.refused(
        "7 before 23: the period 0 follows a longer one",
        7,
        2,
        five(2).period(2, 0),
    );
    to.refused(
        "23 before 10 where a task count is 0 and an old number stands twice",
        23,
        0,
        halves(4).core(0, 1),
    );
    to.refused("10 where each old number stands once", 10, 65, halves(4));
    to.refused("23 before 11", 23, 0, five(2).core(4, 2).factor(0, 0));
}
