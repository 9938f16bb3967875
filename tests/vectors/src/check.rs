//! The cases of the checker that all three versions have. A record is named by
//! its place in the sheet, so that the places of refusals are the same in all.

use crate::form::{expect, hex, refused, File};
use crate::sheets::*;
use reference::{check, list};

pub struct Checks {
    pub file: File,
    pub version: u8,
}

impl Checks {
    pub fn heading(&mut self, line: &str) {
        self.file.heading(&[line]);
    }

    /// A refused sheet, with its number and place.
    pub fn refused(&mut self, title: &str, number: u8, place: u16, sheet: Bytes) {
        let said = refused(number, place as u64);
        expect(title, &format!("{said}\n"), &listing(&sheet.0));
        let lines = [format!("sheet {}", hex(&sheet.0)), said];
        self.file.case(title, &lines);
    }

    /// An accepted sheet, with its listing.
    pub fn accepted(&mut self, title: &str, sheet: Bytes) {
        let answer = check(&sheet.0);
        assert_eq!((answer.refusal, answer.place), (0, 0), "{title}");
        let mut lines = vec![
            format!("sheet {}", hex(&sheet.0)),
            format!("accepted tasks {} cores {}", answer.tasks, answer.cores),
        ];
        lines.extend(listing(&sheet.0).lines().map(|line| format!("| {line}")));
        self.file.case(title, &lines);
    }
}

fn listing(sheet: &[u8]) -> String {
    String::from_utf8(list(sheet)).expect("ASCII")
}

/// Accepted sheets.
pub fn accepted(to: &mut Checks) {
    let v = to.version;
    to.heading("Accepted sheets");
    to.accepted("No tasks and no cores: the header alone", empty(v));
    to.accepted(
        "One task, the least of every field",
        one(v, (1, 1), 1, (1, 1)),
    );
    to.accepted(
        "One task, the most of every field",
        one(v, (60_000, 60_000), 120_000, (60_000, 120_000)),
    );
    to.accepted("Half a core is 500", one(v, (2, 1), 1, (2, 1)));
    to.accepted(
        "One tick in 60,000: the load is rounded up to 1",
        one(v, (60_000, 1), 1, (60_000, 1)),
    );
    to.accepted(
        "The load is 999.5 thousandths, rounded up to 1000",
        one(v, (2000, 1999), 1, (2000, 1)),
    );
    to.accepted(
        "The accelerated period, 3, is far below the period",
        one(v, (10, 3), 1, (3, 1)),
    );
    to.accepted(
        "A full core; the accelerated period 9/2 gives within 4",
        pair(v),
    );
    to.accepted("A full core of three tasks", three(v));
    to.accepted(
        "Five tasks on two cores, one of them with tasks of one period",
        five(v),
    );
    to.accepted("Three cores, each full with one task", three_cores(v));
    to.accepted(
        "Three tasks of one period with one factor",
        sheet(v, &[(6, 2, 0, 1, 1); 3], &[(6, 1)]),
    );
    to.accepted(
        "Figures that are not in lowest terms: the first factor is 2",
        sheet(v, &[(5, 1, 0, 1, 2), (10, 5, 0, 1, 4)], &[(5, 2)]),
    );
    to.accepted(
        "The pivot is the period of no task",
        sheet(v, &[(7, 1, 0, 1, 2), (14, 3, 0, 1, 4)], &[(3, 1)]),
    );
    to.accepted("64 tasks on 8 full cores: the longest sheet", sixty_four(v));
}

/// Rules 1 to 6, of 6 the spare bytes that all versions have.
pub fn rules_1_to_6(to: &mut Checks) {
    let v = to.version;
    let version = v as u16;
    to.heading("1 Stub: fewer than 8 bytes");
    to.refused("No bytes", 1, 0, empty(v).cut(0));
    to.refused("The letter T alone", 1, 0, empty(v).cut(1));
    to.refused("A header without its last byte", 1, 0, empty(v).cut(7));

    to.heading("2 Mark: the first three bytes are not T S H");
    to.refused("The first letter is small", 2, 0, pair(v).set(0, b"t"));
    to.refused("The second byte is 0", 2, 0, pair(v).set(1, &[0]));
    to.refused("The third letter is G", 2, 0, pair(v).set(2, b"G"));
    to.refused("The letters backwards", 2, 0, empty(v).set(0, b"HST"));

    to.heading("3 Version: it is not 1, 2 or 3");
    to.refused("Version 0", 3, 0, pair(v).version(0));
    to.refused("Version 4", 3, 0, pair(v).version(4));
    to.refused(
        "The version's second byte is 1: 256 more",
        3,
        0,
        pair(v).version(version + 256),
    );
    to.refused(
        "The version's bytes exchanged",
        3,
        0,
        empty(v).version(version << 8),
    );

    to.heading("4 Count: more than 64 tasks or more than 8 cores");
    to.refused(
        "65 tasks, with all their records",
        4,
        0,
        sheet(v, &[(65, 1, 0, 1, 1); 65], &[(65, 1)]),
    );
    let nine: Vec<_> = (0..9).map(|k| (2, 1, k, 1, 1)).collect();
    to.refused(
        "9 cores, with all their records",
        4,
        0,
        sheet(v, &nine, &[(2, 1); 9]),
    );
    to.refused("255 tasks", 4, 0, pair(v).counts(255, 1));
    to.refused("255 cores", 4, 0, pair(v).counts(2, 255));

    to.heading("5 Length: it is not 8 + 10 n + 8 c");
    to.refused("The last byte is missing", 5, 0, pair(v).cut(35));
    to.refused("One byte too many", 5, 0, pair(v).and(&[0]));
    to.refused("The core record is missing", 5, 0, pair(v).cut(28));
    to.refused("A header with one byte behind it", 5, 0, empty(v).and(&[0]));
    to.refused(
        "64 tasks and 8 cores are not too many, but their records are missing",
        5,
        0,
        empty(v).counts(64, 8),
    );

    to.heading("6 Spare: a spare byte is not 0");
    to.refused("The header's spare byte", 6, 7, five(v).set(7, &[1]));
    to.refused(
        "The same in a sheet of no tasks",
        6,
        7,
        empty(v).set(7, &[255]),
    );
    to.refused(
        "The last spare byte of core record 0",
        6,
        61,
        five(v).set(61, &[1]),
    );
    to.refused(
        "The last spare byte of core record 1",
        6,
        69,
        five(v).set(69, &[128]),
    );
}

pub fn rules_7_and_8(to: &mut Checks) {
    let v = to.version;
    to.heading("7 Period: it is not 1 to 60,000");
    to.refused("The first period is 0", 7, 0, five(v).period(0, 0));
    to.refused(
        "A period in the middle is 60,001",
        7,
        2,
        five(v).period(2, 60_001),
    );
    to.refused("The last period is 65,535", 7, 4, five(v).period(4, 65_535));
    to.accepted("The period 60,000", one(v, (60_000, 5), 1, (5, 1)));
    to.refused("The period 60,001", 7, 0, one(v, (60_001, 5), 1, (5, 1)));

    to.heading("8 Budget: it is not 1 to the period");
    to.refused("The first budget is 0", 8, 0, five(v).budget(0, 0));
    to.refused(
        "A budget in the middle is 9, above its period",
        8,
        2,
        five(v).budget(2, 9),
    );
    to.refused(
        "The last budget is 256: its low byte is 0",
        8,
        4,
        five(v).budget(4, 256),
    );
    to.accepted("A budget as long as the period", one(v, (9, 9), 1, (9, 1)));
    to.refused(
        "A budget one longer than the period",
        8,
        0,
        one(v, (9, 10), 1, (9, 1)),
    );
}

/// Rules 10 to 14.
pub fn rules_10_to_14(to: &mut Checks) {
    let v = to.version;
    to.heading("10 Bare: a core has no task");
    let task = |core| (4, 1, core, 1, 1);
    let on = |cores: &[u8], many| {
        let tasks: Vec<_> = cores.iter().map(|&core| task(core)).collect();
        sheet(v, &tasks, &vec![(4, 1); many])
    };
    to.refused("One core and no tasks", 10, 64, on(&[], 1));
    to.refused(
        "The first of three cores has no task",
        10,
        64,
        on(&[1, 2], 3),
    );
    to.refused(
        "The middle one of three has no task",
        10,
        65,
        on(&[0, 2], 3),
    );
    to.refused("The last one of three has no task", 10, 66, on(&[0, 1], 3));
    to.refused(
        "The last of eight has no task",
        10,
        71,
        on(&[0, 1, 2, 3, 4, 5, 6], 8),
    );

    to.heading("11 Factor: a factor or divisor is not 1 to 120,000, or a pivot not 1 to 60,000");
    to.refused("The first factor is 0", 11, 0, five(v).factor(0, 0));
    to.refused(
        "A factor in the middle is 120,001",
        11,
        2,
        five(v).factor(2, 120_001),
    );
    to.refused(
        "The last factor has all bits set",
        11,
        4,
        five(v).factor(4, u32::MAX),
    );
    to.refused(
        "A factor of 131,074: its two low bytes are 2, as they were",
        11,
        1,
        pair(v).factor(1, 131_074),
    );
    to.refused(
        "A factor of 16,777,218: its three low bytes are 2",
        11,
        1,
        pair(v).factor(1, 16_777_218),
    );
    to.refused("The pivot of core 0 is 0", 11, 64, five(v).pivot(0, 0));
    to.refused(
        "The pivot of core 1 is 60,001",
        11,
        65,
        five(v).pivot(1, 60_001),
    );
    to.refused("The divisor of core 0 is 0", 11, 64, five(v).divisor(0, 0));
    to.refused(
        "The divisor of core 1 is 120,001",
        11,
        65,
        five(v).divisor(1, 120_001),
    );
    to.refused(
        "A divisor of 16,777,218: its three low bytes are 2, as they were",
        11,
        64,
        pair(v).divisor(0, 16_777_218),
    );

    to.heading("12 Stretch: Q * M > p * D");
    to.refused("At the first record", 12, 0, five(v).factor(0, 3));
    to.refused("At a record in the middle", 12, 2, five(v).factor(2, 3));
    to.refused("At the last record", 12, 4, five(v).factor(4, 3));
    to.refused(
        "A period one tick too short: 9 * 1 > 4 * 2",
        12,
        0,
        pair(v).period(0, 4),
    );
    to.refused(
        "A pivot one too long: 10 * 2 > 9 * 2",
        12,
        1,
        pair(v).pivot(0, 10),
    );
    to.accepted(
        "Products above 32 bits, and equal: 60,000 * 119,998 = 59,999 * 120,000",
        one(v, (59_999, 59_999), 119_998, (60_000, 120_000)),
    );
    to.refused(
        "The factor one higher",
        12,
        0,
        one(v, (59_999, 59_999), 119_999, (60_000, 120_000)),
    );
    to.refused(
        "60,000 * 71,583 = 2^32 + 12,704, and 50,000 * 71,583 is less",
        12,
        0,
        one(v, (50_000, 1), 71_583, (60_000, 71_583)),
    );
    to.accepted(
        "60,000 * 60,000 is less than 60,000 * 71,583",
        one(v, (60_000, 1), 60_000, (60_000, 71_583)),
    );

    to.heading("13 Chain: a factor is no multiple of the one before it by priority");
    to.accepted("Two cores with the factors 2, 4, 8", chains(v));
    to.accepted("Factors that are equal: 2, 4, 4", chains(v).factor(2, 4));
    to.refused("2, 4, 6: at the third", 13, 2, chains(v).factor(2, 6));
    to.refused(
        "2, 3, 6: at the second, 3 to 2",
        13,
        1,
        chains(v).factor(1, 3).factor(2, 6),
    );
    to.refused(
        "The second core, 2, 4, 6: at its third",
        13,
        5,
        chains(v).factor(5, 6),
    );
    to.refused(
        "4, 2: half of the factor before it is no multiple",
        13,
        1,
        sheet(v, &[(20, 1, 0, 1, 4), (30, 1, 0, 1, 2)], &[(5, 1)]),
    );
    to.refused(
        "Of one period, the lower number comes first: 2, 1",
        13,
        1,
        sheet(v, &[(6, 1, 0, 1, 2), (6, 1, 0, 1, 1)], &[(3, 1)]),
    );
    to.accepted(
        "The same with the factors exchanged: 1, 2",
        sheet(v, &[(6, 1, 0, 1, 1), (6, 1, 0, 1, 2)], &[(3, 1)]),
    );

    to.heading("14 Overload: a core has more work than time");
    to.refused(
        "A full core with one tick more",
        14,
        64,
        pair(v).budget(1, 8),
    );
    to.refused(
        "A full core of three tasks with one tick more",
        14,
        64,
        three(v).budget(2, 7),
    );
    to.refused(
        "The second core has more work than time",
        14,
        65,
        sheet(
            v,
            &[(4, 4, 0, 1, 1), (5, 3, 1, 1, 1), (5, 3, 1, 1, 1)],
            &[(4, 1), (5, 1)],
        ),
    );
    to.refused(
        "The last of three: one accelerated period is shorter than the budget",
        14,
        66,
        three_cores(v).pivot(2, 3),
    );
    to.accepted(
        "1999 of 2000 and 2 of 4000 ticks: exactly one",
        sheet(
            v,
            &[(2000, 1999, 0, 1, 1), (4000, 2, 0, 1, 2)],
            &[(2000, 1)],
        ),
    );
    to.refused(
        "3 of 4000 instead: the load is 4001/4000",
        14,
        64,
        sheet(
            v,
            &[(2000, 1999, 0, 1, 1), (4000, 3, 0, 1, 2)],
            &[(2000, 1)],
        ),
    );
    to.refused(
        "The sum is 2 * 32,768 * 65,536 = 2^32, above 60,000 * 65,536",
        14,
        64,
        sheet(v, &[(60_000, 32_768, 0, 1, 65_536); 2], &[(60_000, 65_536)]),
    );
}

/// Two rules broken at once, next to each other in the order of the rules, those
/// of one version alone left out.
pub fn two_rules(to: &mut Checks) {
    let v = to.version;
    to.heading("Two rules are broken: the first is named");
    to.refused("1 before 2", 1, 0, empty(v).cut(7).set(0, b"X"));
    to.refused("2 before 3", 2, 0, empty(v).set(0, b"X").version(9));
    to.refused("3 before 4", 3, 0, empty(v).version(9).counts(65, 9));
    to.refused("4 before 5", 4, 0, empty(v).counts(65, 0));
    to.refused("5 before 6", 5, 0, pair(v).cut(35).set(7, &[1]));
    to.refused(
        "6 in the last record before 7 in the first",
        6,
        69,
        five(v).set(69, &[1]).period(0, 0),
    );
    to.refused(
        "7 at the last task before 8 at the first",
        7,
        4,
        five(v).period(4, 0).budget(0, 0),
    );
    let bare = || sheet(v, &[(4, 1, 0, 1, 1), (4, 1, 0, 1, 1)], &[(4, 1); 2]);
    to.refused(
        "10 at core 1 before 11 at task 0",
        10,
        65,
        bare().factor(0, 0),
    );
    to.refused(
        "11 of the last factor before 11 of the first pivot",
        11,
        4,
        five(v).factor(4, 0).pivot(0, 0),
    );
    to.refused(
        "11 of the last divisor before 12 at the first task",
        11,
        65,
        five(v).factor(0, 3).divisor(1, 0),
    );
    to.refused(
        "12 at the last task before 13 at the third",
        12,
        5,
        chains(v).factor(2, 6).factor(5, 9),
    );
    to.refused(
        "13 on core 1 before 14 on core 0",
        13,
        5,
        chains(v).factor(5, 6).budget(0, 10),
    );
    to.refused("6 before 14", 6, 7, pair(v).set(7, &[1]).budget(1, 8));
    to.refused(
        "12 at task 1 before 14",
        12,
        1,
        pair(v).factor(1, 3).budget(0, 2).budget(1, 9),
    );
}

/// One rule broken at two places, those of one version alone left out.
pub fn two_places(to: &mut Checks) {
    let v = to.version;
    to.heading("One rule is broken at two places: the first is named");
    to.refused(
        "6 in the header and in core record 1",
        6,
        7,
        five(v).set(7, &[1]).set(69, &[1]),
    );
    to.refused(
        "6 in both core records",
        6,
        61,
        five(v).set(61, &[1]).set(69, &[1]),
    );
    to.refused(
        "7 at records 1 and 3",
        7,
        1,
        five(v).period(3, 0).period(1, 60_001),
    );
    to.refused(
        "8 at records 2 and 4",
        8,
        2,
        five(v).budget(4, 0).budget(2, 9),
    );
    to.refused(
        "10 at cores 1 and 2",
        10,
        65,
        sheet(v, &[(4, 1, 0, 1, 1)], &[(4, 1); 3]),
    );
    to.refused(
        "11 at records 1 and 2",
        11,
        1,
        five(v).factor(2, 0).factor(1, 120_001),
    );
    to.refused(
        "11 at both cores, divisor and pivot",
        11,
        64,
        five(v).divisor(0, 0).pivot(1, 0),
    );
    to.refused(
        "12 at records 1 and 4",
        12,
        1,
        five(v).factor(4, 3).factor(1, 3),
    );
    to.refused(
        "13 on both cores",
        13,
        2,
        chains(v).factor(5, 6).factor(2, 6),
    );
    to.refused(
        "14 on the second and third of three cores",
        14,
        65,
        three_cores(v).pivot(2, 3).pivot(1, 3),
    );
}
