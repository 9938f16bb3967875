//! The checker on sheets of version 1.

use crate::check::{self, Checks};
use crate::form::File;
use crate::sheets::*;

pub fn file() -> File {
    let about = [
        "The checker on sheets of version 1: bytes, the answer, and of an accepted sheet the listing.",
    ];
    let mut to = Checks {
        file: File::new("check-1.txt", &about),
        version: 1,
    };
    check::accepted(&mut to);
    check::rules_1_to_6(&mut to);
    spare(&mut to);
    check::rules_7_and_8(&mut to);
    core(&mut to);
    check::rules_10_to_14(&mut to);
    order_of_places(&mut to);
    check::two_rules(&mut to);
    two_rules(&mut to);
    check::two_places(&mut to);
    two_places(&mut to);
    to.file
}

fn spare(to: &mut Checks) {
    to.heading("6 Spare: bytes that another version uses");
    to.refused(
        "Byte 5 of task record 0, a stroke length of version 3",
        6,
        13,
        five(1).stroke(0, 1),
    );
    to.refused("Byte 5 of task record 4", 6, 53, five(1).stroke(4, 255));
    to.refused(
        "Byte 2 of core record 0, a task count of version 2",
        6,
        60,
        five(1).count(0, 3),
    );
    to.refused(
        "A version 2 sheet with the version 1",
        6,
        30,
        pair(2).version(1),
    );
    to.refused(
        "A version 3 sheet with the version 1",
        6,
        13,
        pair(3).version(1),
    );
}

/// Rule 9, which versions 1 and 3 have.
pub fn core(to: &mut Checks) {
    let v = to.version;
    to.heading("9 Core: the core is not below c");
    to.refused("The first task is on core 2 of 2", 9, 0, five(v).core(0, 2));
    to.refused(
        "A task in the middle is on core 8",
        9,
        2,
        five(v).core(2, 8),
    );
    to.refused("The last task is on core 255", 9, 4, five(v).core(4, 255));
    to.refused("Tasks but no cores", 9, 0, pair(v).counts(2, 0).cut(28));
}

/// Places by core and priority, where the numbers do not rise with them.
pub fn order_of_places(to: &mut Checks) {
    let v = to.version;
    to.heading("Places where the tasks' numbers go against cores and priority");
    // core 1 has tasks 0 and 1, core 0 has tasks 2 and 3, the longer period first
    let crossed = |factors: [u32; 4]| {
        let periods = [40, 20, 40, 20];
        let tasks: Vec<_> = (0..4)
            .map(|i| (periods[i], 1, [1, 1, 0, 0][i], 1, factors[i]))
            .collect();
        sheet(v, &tasks, &[(5, 1); 2])
    };
    to.accepted("Four tasks on two cores", crossed([4, 2, 6, 3]));
    to.refused(
        "13 on core 1 alone is at task 0, the second by priority",
        13,
        0,
        crossed([3, 2, 6, 3]),
    );
    to.refused(
        "13 on both cores: core 0 comes first, at task 2",
        13,
        2,
        crossed([3, 2, 4, 3]),
    );
    to.refused(
        "12 on both cores: task 1 of core 1 comes first",
        12,
        1,
        crossed([4, 5, 9, 3]),
    );
    to.refused(
        "13 twice on one core: the first by priority, task 1, and not the first by number",
        13,
        1,
        sheet(
            v,
            &[(40, 1, 0, 1, 8), (30, 1, 0, 1, 3), (20, 1, 0, 1, 2)],
            &[(5, 1)],
        ),
    );
}

/// The neighbours of rule 9, which versions 1 and 3 have.
pub fn around_9(to: &mut Checks) {
    let v = to.version;
    to.refused(
        "9 at the last task before 10 at core 0",
        9,
        1,
        sheet(v, &[(4, 1, 1, 1, 1), (4, 1, 7, 1, 1)], &[(4, 1); 2]),
    );
}

fn two_rules(to: &mut Checks) {
    to.refused(
        "8 at the last task before 9 at the first",
        8,
        4,
        five(1).budget(4, 0).core(0, 2),
    );
    around_9(to);
}

fn two_places(to: &mut Checks) {
    to.refused("9 at records 1 and 2", 9, 1, five(1).core(2, 2).core(1, 9));
    to.refused(
        "6 in task records 0 and 4",
        6,
        13,
        five(1).stroke(4, 1).stroke(0, 1),
    );
}
