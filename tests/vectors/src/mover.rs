//! The mover.

use crate::form::{expect, hex, refused, File};
use crate::sheets::*;
use reference::move_sheet;

pub fn file() -> File {
    let about = [
        "The mover: a sheet and the bytes of the buffer; the answer, and the sheet of the other version.",
    ];
    let mut to = Moves(File::new("move.txt", &about));
    moves(&mut to);
    refusals(&mut to);
    to.0
}

struct Moves(File);

impl Moves {
    fn case(&mut self, title: &str, sheet: &Bytes, room: usize, answer: &[String]) {
        let mut lines = vec![format!("sheet {}", hex(&sheet.0)), format!("room {room}")];
        lines.extend_from_slice(answer);
        self.0.case(title, &lines);
    }

    /// A version 1 sheet and its version 2 sheet, each moved to the other.
    fn both_ways(&mut self, title: &str, one: Bytes, two: Bytes) {
        for (from, to, way) in [(&one, &two, "1 to 2"), (&two, &one, "2 to 1")] {
            let title = format!("{title}, version {way}");
            let mut out = vec![0; 712];
            let answer = move_sheet(&from.0, &mut out);
            let length = answer.length as usize;
            assert_eq!((answer.refusal, length), (0, to.0.len()), "{title}");
            expect(&title, &hex(&to.0), &hex(&out[..length]));
            let answer = [
                format!("accepted length {length}"),
                format!("gives {}", hex(&to.0)),
            ];
            self.case(&title, from, 712, &answer);
        }
    }

    fn refused(&mut self, title: &str, number: u8, place: u16, sheet: Bytes, room: usize) {
        let answer = move_sheet(&sheet.0, &mut vec![0; room]);
        let said = refused(number, place as u64);
        expect(title, &said, &refused(answer.refusal, answer.place as u64));
        self.case(title, &sheet, room, &[said]);
    }
}

fn moves(to: &mut Moves) {
    to.0.heading(&["Moves, both ways"]);
    to.both_ways("No tasks", empty(1), empty(2));
    to.both_ways(
        "One task",
        one(1, (2, 1), 1, (2, 1)),
        one(2, (2, 1), 1, (2, 1)),
    );
    to.both_ways("Two tasks by priority", pair(1), pair(2));
    // the bytes of both versions by hand, as in SHEET.md, section 12
    let header = |version| vec![0x54, 0x53, 0x48, version, 0, 5, 2, 0];
    let one = [
        header(1),
        vec![9, 0, 7, 0, 1, 0, 2, 0, 0, 0],
        vec![8, 0, 2, 0, 0, 0, 2, 0, 0, 0],
        vec![5, 0, 1, 0, 1, 0, 1, 0, 0, 0],
        vec![4, 0, 1, 0, 0, 0, 1, 0, 0, 0],
        vec![8, 0, 1, 0, 0, 0, 2, 0, 0, 0],
        vec![4, 0, 0, 0, 1, 0, 0, 0],
        vec![9, 0, 0, 0, 2, 0, 0, 0],
    ];
    let two = [
        header(2),
        vec![4, 0, 1, 0, 3, 0, 1, 0, 0, 0],
        vec![8, 0, 2, 0, 1, 0, 2, 0, 0, 0],
        vec![8, 0, 1, 0, 4, 0, 2, 0, 0, 0],
        vec![5, 0, 1, 0, 2, 0, 1, 0, 0, 0],
        vec![9, 0, 7, 0, 0, 0, 2, 0, 0, 0],
        vec![4, 0, 3, 0, 1, 0, 0, 0],
        vec![9, 0, 2, 0, 2, 0, 0, 0],
    ];
    to.both_ways(
        "Five tasks on two cores",
        Bytes(one.concat()),
        Bytes(two.concat()),
    );
    let ties = |version| sheet(version, &[(6, 2, 0, 1, 1); 3], &[(6, 1)]);
    to.both_ways(
        "Tasks of one period keep the order of their numbers",
        ties(1),
        ties(2),
    );
    let turned = |version| {
        let tasks = [(4, 4, 2, 1, 1), (5, 5, 1, 1, 1), (6, 6, 0, 1, 1)];
        sheet(version, &tasks, &[(6, 1), (5, 1), (4, 1)])
    };
    to.both_ways(
        "Three cores in the order of the numbers backwards",
        turned(1),
        turned(2),
    );
    to.both_ways("The longest sheet", sixty_four(1), sixty_four(2));
}

fn refusals(to: &mut Moves) {
    to.0.heading(&["The checker's refusals"]);
    to.refused("1, no bytes", 1, 0, empty(1).cut(0), 712);
    to.refused("2, another letter for T", 2, 0, pair(1).set(0, b"X"), 712);
    to.refused("3, version 4", 3, 0, pair(1).version(4), 712);
    to.refused("4, 65 tasks", 4, 0, empty(2).counts(65, 0), 712);
    to.refused("5, the last byte is missing", 5, 0, pair(2).cut(35), 712);
    to.refused(
        "6, a task count in version 1",
        6,
        60,
        five(1).count(0, 3),
        712,
    );
    to.refused(
        "6, behind a task count in version 2",
        6,
        61,
        five(2).spare(0, [3, 1]),
        712,
    );
    to.refused(
        "7 in version 2, by position",
        7,
        0,
        five(2).period(0, 0),
        712,
    );
    to.refused("8 in version 1", 8, 1, pair(1).budget(1, 10), 712);
    to.refused("23, an old number twice", 23, 0, five(2).core(4, 2), 712);
    to.refused("9, core 2 of 2", 9, 4, five(1).core(4, 2), 712);
    to.refused(
        "10 in version 2, a core and no tasks",
        10,
        64,
        sheet(2, &[], &[(4, 1)]),
        712,
    );
    to.refused(
        "11 in version 1, a divisor",
        11,
        65,
        five(1).divisor(1, 0),
        712,
    );
    to.refused(
        "12 in version 2, by position",
        12,
        4,
        five(2).factor(4, 3),
        712,
    );
    to.refused("13 in version 1", 13, 2, three(1).factor(2, 3), 712);
    to.refused("14 in version 2", 14, 64, three(2).budget(2, 7), 712);

    to.0.heading(&["Version 3 is 3, whatever else is wrong with it or not"]);
    to.refused(
        "Version 3, a sheet that the checker accepts",
        3,
        0,
        pair(3),
        712,
    );
    to.refused("Version 3, no tasks", 3, 0, empty(3), 712);
    to.refused(
        "Version 3, strokes of one tick alone",
        3,
        0,
        three_cores(3),
        712,
    );
    to.refused("Version 3, 65 tasks", 3, 0, empty(3).counts(65, 0), 712);
    to.refused(
        "Version 3, a stroke length of 0",
        3,
        0,
        pair(3).stroke(1, 0),
        712,
    );
    to.refused(
        "Version 3, with a wrong mark: 2 comes first",
        2,
        0,
        pair(3).set(2, b"X"),
        712,
    );

    to.0.heading(&["16 Tight: the buffer has fewer than 712 bytes; it comes last"]);
    to.refused("A buffer of 711 bytes", 16, 0, pair(1), 711);
    to.refused(
        "A buffer of 36 bytes, as many as the sheet has, from version 2",
        16,
        0,
        pair(2),
        36,
    );
    to.refused("No buffer, for a sheet of no tasks", 16, 0, empty(1), 0);
    to.refused("14 before 16", 14, 64, pair(1).budget(1, 8), 711);
    to.refused("3 for version 3 before 16", 3, 0, pair(3), 0);
}
