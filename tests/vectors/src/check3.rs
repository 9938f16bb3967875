//! The checker on sheets of version 3.

use crate::check::{self, Checks};
use crate::check1;
use crate::form::File;
use crate::sheets::*;

pub fn file() -> File {
    let about = [
        "The checker on sheets of version 3: bytes, the answer, and of an accepted sheet the listing.",
    ];
    let mut to = Checks {
        file: File::new("check-3.txt", &about),
        version: 3,
    };
    check::accepted(&mut to);
    accepted(&mut to);
    check::rules_1_to_6(&mut to);
    spare(&mut to);
    check::rules_7_and_8(&mut to);
    stroke(&mut to);
    check1::core(&mut to);
    check::rules_10_to_14(&mut to);
    room(&mut to);
    check1::order_of_places(&mut to);
    check::two_rules(&mut to);
    two_rules(&mut to);
    check::two_places(&mut to);
    two_places(&mut to);
    to.file
}

/// Tasks (3,1), (9,4), (18,4) with the stroke lengths 1, q, r: the first has
/// room for a B of 2.
fn over_two(q: u8, r: u8) -> Bytes {
    sheet(
        3,
        &[(3, 1, 0, 1, 1), (9, 4, 0, q, 3), (18, 4, 0, r, 6)],
        &[(3, 1)],
    )
}

/// Tasks (10,2) and (20,9), the second in one stroke.
fn in_one_piece() -> [(u16, u16, u8, u8, u32); 2] {
    [(10, 2, 0, 1, 1), (20, 9, 0, 9, 2)]
}

fn accepted(to: &mut Checks) {
    to.heading("Accepted sheets: exactly enough room for the strokes");
    to.accepted(
        "A stroke of 9 ticks in one piece: 2 + 8 <= 10",
        sheet(3, &in_one_piece(), &[(10, 1)]),
    );
    to.accepted(
        "B is the longest stroke below less 1, and not the sum: 1 + 2 <= 3",
        over_two(3, 2),
    );
    to.accepted(
        "The same where the last task has the longest stroke",
        over_two(2, 3),
    );
    to.accepted(
        "The first task by priority holds nobody up, however long its stroke",
        sheet(3, &[(10, 5, 0, 5, 1), (20, 10, 0, 1, 2)], &[(10, 1)]),
    );
    to.accepted(
        "A stroke on core 1 holds nobody up on core 0",
        sheet(3, &[(2, 2, 0, 1, 1), (9, 9, 1, 9, 1)], &[(2, 1), (9, 1)]),
    );
    to.accepted(
        "A stroke length of 255, as long as the budget",
        sheet(3, &[(300, 255, 0, 255, 1)], &[(300, 1)]),
    );
    to.accepted(
        "A stroke length of 255 where the budget is longer",
        sheet(3, &[(300, 299, 0, 255, 1)], &[(300, 1)]),
    );
    to.accepted(
        "Of one period, the lower number is above: task 0 waits for task 1, 2 + 3 <= 10",
        sheet(3, &[(10, 2, 0, 1, 1), (10, 4, 0, 4, 1)], &[(10, 1)]),
    );
}

fn spare(to: &mut Checks) {
    to.heading("6 Spare: bytes 2 and 3 of a core record");
    to.refused(
        "Byte 2 of core record 0, a task count of version 2",
        6,
        60,
        five(3).count(0, 3),
    );
    to.refused("Byte 2 of core record 1", 6, 68, five(3).count(1, 2));
    to.refused(
        "A version 2 sheet with the version 3",
        6,
        30,
        pair(2).version(3),
    );
}

fn stroke(to: &mut Checks) {
    to.heading("25 Stroke: the stroke length is not 1 to the budget");
    to.refused("The first stroke length is 0", 25, 0, five(3).stroke(0, 0));
    to.refused(
        "A stroke length in the middle is 2, and its budget 1",
        25,
        2,
        five(3).stroke(2, 2),
    );
    to.refused(
        "The last stroke length is 255",
        25,
        4,
        five(3).stroke(4, 255),
    );
    to.refused(
        "A stroke length one above a budget of 7",
        25,
        1,
        pair(3).stroke(1, 8),
    );
    to.refused(
        "A stroke length of 255, one above the budget",
        25,
        0,
        sheet(3, &[(300, 254, 0, 255, 1)], &[(300, 1)]),
    );
    to.refused(
        "A version 1 sheet with the version 3: all are 0",
        25,
        0,
        pair(1).version(3),
    );
    to.refused(
        "A stroke length above the budget, 1, but not above the period",
        25,
        0,
        one(3, (9, 1), 1, (9, 1)).stroke(0, 9),
    );
}

fn room(to: &mut Checks) {
    to.heading("14 Overload: a stroke from below leaves a task no room");
    to.refused(
        "One tick longer than there is room: 1 * 2 + 4 * 2 > 9",
        14,
        64,
        pair(3).stroke(1, 5),
    );
    to.refused(
        "1 + 3 > 3, by the middle task's stroke",
        14,
        64,
        over_two(4, 2),
    );
    to.refused(
        "1 + 3 > 3, by the last task's stroke",
        14,
        64,
        over_two(2, 4),
    );
    let last = |q| {
        let tasks = [(3, 1, 0, 1, 1), (9, 2, 0, 1, 3), (18, 4, 0, q, 6)];
        sheet(3, &tasks, &[(3, 1)])
    };
    to.refused(
        "The first task alone has no room, for the last one's stroke: 1 + 3 > 3",
        14,
        64,
        last(4),
    );
    to.accepted("The same with a stroke of 3: 1 + 2 <= 3", last(3));
    let mut tasks = in_one_piece().to_vec();
    tasks.push((10, 1, 0, 1, 1));
    to.refused(
        "A third task, 1 tick every 10: 2 + 1 + 8 > 10, though the load is 750",
        14,
        64,
        sheet(3, &tasks, &[(10, 1)]),
    );
    to.refused(
        "The first task has room, 1 + 3 <= 5, but the second has not: 2 * 1 + 6 + 3 > 10",
        14,
        64,
        sheet(
            3,
            &[(5, 1, 0, 1, 1), (10, 6, 0, 1, 2), (20, 4, 0, 4, 4)],
            &[(5, 1)],
        ),
    );
    to.accepted(
        "The same with a stroke of 3: 2 * 1 + 6 + 2 = 10",
        sheet(
            3,
            &[(5, 1, 0, 1, 1), (10, 6, 0, 1, 2), (20, 4, 0, 3, 4)],
            &[(5, 1)],
        ),
    );
    to.refused(
        "Only core 1 has no room",
        14,
        65,
        sheet(
            3,
            &[(9, 9, 0, 9, 1), (3, 1, 1, 1, 1), (9, 4, 1, 4, 3)],
            &[(9, 1), (3, 1)],
        ),
    );
    to.refused(
        "Of one period, the lower number is above: 4 + 3 > 6, though the load is one",
        14,
        64,
        sheet(3, &[(12, 4, 0, 1, 1), (12, 4, 0, 4, 2)], &[(6, 1)]),
    );
}

fn two_rules(to: &mut Checks) {
    to.refused(
        "8 at the last task before 25 at the first",
        8,
        4,
        five(3).budget(4, 0).stroke(0, 0),
    );
    to.refused(
        "25 at the last task before 9 at the first",
        25,
        4,
        five(3).stroke(4, 2).core(0, 2),
    );
    check1::around_9(to);
    to.refused("6 before 25", 6, 69, five(3).set(69, &[1]).stroke(0, 0));
    to.refused(
        "13 on core 1 before 14 by a stroke on core 0",
        13,
        5,
        chains(3).budget(2, 20).stroke(2, 20).factor(5, 6),
    );
}

fn two_places(to: &mut Checks) {
    to.refused(
        "25 at records 1 and 3",
        25,
        1,
        five(3).stroke(3, 0).stroke(1, 3),
    );
    to.refused("9 at records 1 and 2", 9, 1, five(3).core(2, 2).core(1, 9));
    to.refused(
        "14 on core 0 by a stroke, on core 1 by the load",
        14,
        64,
        chains(3)
            .budget(2, 20)
            .stroke(2, 20)
            .budget(3, 9)
            .budget(4, 9),
    );
}
