//! Sheets of version 2: small ones, each refusal 23, and the mover.

use reference::*;

/// A sheet of tasks (period, budget, core, factor) and cores (pivot, divisor).
fn sheet(tasks: &[(u64, u64, usize, u64)], cores: &[(u64, u64)]) -> Sheet {
    let task = |&(period, budget, core, factor): &(u64, u64, usize, u64)| TaskRecord {
        period,
        budget,
        core,
        stroke: 1,
        factor,
    };
    let core = |&(pivot, divisor): &(u64, u64)| CoreRecord { pivot, divisor };
    Sheet {
        tasks: tasks.iter().map(task).collect(),
        cores: cores.iter().map(core).collect(),
    }
}

/// Five tasks on two cores, two of them with the same period.
fn mixed() -> Vec<u8> {
    let tasks = [
        (9, 7, 1, 2),
        (8, 2, 0, 2),
        (5, 1, 1, 1),
        (4, 1, 0, 1),
        (8, 1, 0, 2),
    ];
    sheet(&tasks, &[(4, 1), (9, 2)]).write()
}

#[rustfmt::skip]
const MIXED_GROUPED: [u8; 74] = [
    b'T', b'S', b'H', 2, 0, 5, 2, 0,
    4, 0, 1, 0, 3, 0, 1, 0, 0, 0,
    8, 0, 2, 0, 1, 0, 2, 0, 0, 0,
    8, 0, 1, 0, 4, 0, 2, 0, 0, 0,
    5, 0, 1, 0, 2, 0, 1, 0, 0, 0,
    9, 0, 7, 0, 0, 0, 2, 0, 0, 0,
    4, 0, 3, 0, 1, 0, 0, 0,
    9, 0, 2, 0, 2, 0, 0, 0,
];

/// The listing's sheet (card B).
fn listed() -> Vec<u8> {
    sheet(&[(3, 1, 0, 1), (7, 1, 0, 2), (13, 6, 0, 4)], &[(3, 1)]).write()
}

fn moved(sheet: &[u8]) -> Vec<u8> {
    let mut out = vec![0xA5; 800];
    let answer = move_sheet(sheet, &mut out);
    assert_eq!((answer.refusal, answer.place), (0, 0));
    assert!(out[answer.length as usize..].iter().all(|&b| b == 0xA5));
    out.truncate(answer.length as usize);
    out
}

/// The refusal and place of these bytes, 0 and 0 where they are accepted. The
/// mover, a start and the listing have the same.
#[track_caller]
fn refusal(bytes: &[u8]) -> (u8, u16) {
    let answer = check(bytes);
    let refusal = (answer.refusal, answer.place);
    if answer.refusal != 0 {
        let start = start_sheet(bytes, 0);
        assert_eq!((start.refusal, start.place), refusal);
        assert_eq!(start.core, Core::EMPTY);
        for room in [0, 711, 712, 800] {
            let mut out = vec![0xA5; room];
            let moved = move_sheet(bytes, &mut out);
            assert_eq!(
                (moved.refusal, moved.place, moved.length),
                (refusal.0, refusal.1, 0)
            );
            assert!(out.iter().all(|&byte| byte == 0xA5));
        }
        let line = format!("refused {} place {}\n", refusal.0, refusal.1);
        assert_eq!(list(bytes), line.as_bytes());
    }
    refusal
}

/// The mixed sheet with these bytes changed.
#[track_caller]
fn changed(changes: &[(usize, u8)]) -> (u8, u16) {
    let mut bytes = MIXED_GROUPED;
    for &(at, byte) in changes {
        assert_ne!(bytes[at], byte);
        bytes[at] = byte;
    }
    refusal(&bytes)
}

/// Where a record of the mixed sheet stands.
fn task(position: usize) -> usize {
    8 + 10 * position
}

fn core(number: usize) -> usize {
    58 + 8 * number
}

#[test]
fn moves_both_ways() {
    assert_eq!(moved(&mixed()), MIXED_GROUPED);
    assert_eq!(moved(&MIXED_GROUPED), mixed());
    let counts = check(&MIXED_GROUPED);
    assert_eq!((counts.refusal, counts.tasks, counts.cores), (0, 5, 2));
    assert_eq!(accept(&MIXED_GROUPED), accept(&mixed()));
}

#[test]
fn moves_the_listed_sheet() {
    // one core by priority as it stands: the number for the core, and the count
    let mut grouped = listed();
    grouped[3] = 2;
    (grouped[12], grouped[22], grouped[32]) = (0, 1, 2);
    grouped[40] = 3;
    assert_eq!(moved(&listed()), grouped);
    assert_eq!(moved(&grouped), listed());
}

#[test]
fn moves_an_empty_sheet() {
    assert_eq!(
        moved(b"TSH\x01\x00\x00\x00\x00"),
        b"TSH\x02\x00\x00\x00\x00"
    );
    assert_eq!(
        moved(b"TSH\x02\x00\x00\x00\x00"),
        b"TSH\x01\x00\x00\x00\x00"
    );
    assert_eq!(list(b"TSH\x02\x00\x00\x00\x00"), b"TSH 2 tasks 0 cores 0\n");
    assert_eq!(start_sheet(b"TSH\x02\x00\x00\x00\x00", 0).refusal, 9);
}

#[test]
fn moves_the_longest_sheet() {
    // the cores turn with the numbers, and the periods fall
    let tasks: Vec<_> = (0..64).map(|i| (264 - i, 1, i as usize % 8, 1)).collect();
    let long = sheet(&tasks, &[(200, 1); 8]).write();
    let grouped = moved(&long);
    assert_eq!((long.len(), grouped.len()), (712, 712));
    assert_eq!(moved(&grouped), long);
    let numbers: Vec<u8> = (0..64).map(|i| grouped[task(i) + 4]).collect();
    assert_eq!(numbers[..9], [56, 48, 40, 32, 24, 16, 8, 0, 57]);
}

#[test]
fn listing() {
    let text = "TSH 2 tasks 5 cores 2\n\
        task 0 core 1 period 9 budget 7 factor 2 within 9\n\
        task 1 core 0 period 8 budget 2 factor 2 within 8\n\
        task 2 core 1 period 5 budget 1 factor 1 within 4\n\
        task 3 core 0 period 4 budget 1 factor 1 within 4\n\
        task 4 core 0 period 8 budget 1 factor 2 within 8\n\
        core 0 pivot 4 divisor 1 load 625\n\
        core 1 pivot 9 divisor 2 load 1000\n";
    assert_eq!(String::from_utf8(list(&MIXED_GROUPED)).unwrap(), text);
    let of_version_1 = text.replace("TSH 2", "TSH 1");
    assert_eq!(String::from_utf8(list(&mixed())).unwrap(), of_version_1);
}

#[test]
fn starts_by_old_numbers() {
    for core in [0, 1, 2, 256, u64::MAX] {
        assert_eq!(
            start_sheet(&MIXED_GROUPED, core),
            start_sheet(&mixed(), core)
        );
    }
    let numbers = |core: u64| -> Vec<u8> {
        let start = start_sheet(&MIXED_GROUPED, core);
        start.core.used().iter().map(|task| task.number).collect()
    };
    assert_eq!(numbers(0), [3, 1, 4]);
    assert_eq!(numbers(1), [2, 0]);
    let missing = start_sheet(&MIXED_GROUPED, 2);
    assert_eq!((missing.refusal, missing.place), (9, 0));
    assert_eq!(missing.core, Core::EMPTY);
    let released = release(start_sheet(&MIXED_GROUPED, 1).core, 0);
    assert_eq!((released.refusal, tick(released.core).task), (0, 0));
    let early = release(released.core, 0);
    assert_eq!((early.refusal, early.place), (18, 0));
}

#[test]
fn versions() {
    for (low, high, refused) in [
        (0, 0, 3),
        (4, 0, 3),
        (2, 1, 3),
        (1, 1, 3),
        (2, 2, 3),
        (0, 2, 3),
        (3, 3, 3),
        (0, 3, 3),
    ] {
        let mut bytes = MIXED_GROUPED;
        (bytes[3], bytes[4]) = (low, high);
        assert_eq!(refusal(&bytes), (refused, 0));
    }
    // a sheet under the other version
    assert_eq!(changed(&[(3, 1)]), (6, 60));
    let mut bytes = mixed();
    bytes[3] = 2;
    assert_eq!(refusal(&bytes), (23, 0));
}

#[test]
fn spare_bytes() {
    assert_eq!(changed(&[(7, 1)]), (6, 7));
    assert_eq!(changed(&[(task(4) + 5, 1), (core(0) + 3, 1)]), (6, 53));
    assert_eq!(changed(&[(core(0) + 3, 1)]), (6, 61));
    assert_eq!(changed(&[(core(1) + 3, 1)]), (6, 69));
    // before 7, 8 and 23
    let more = [(core(1) + 3, 1), (task(0), 0), (core(0) + 2, 9)];
    assert_eq!(changed(&more), (6, 69));
}

#[test]
fn numbers_not_each_once() {
    assert_eq!(changed(&[(task(4) + 4, 2)]), (23, 0));
    assert_eq!(changed(&[(task(0) + 4, 0)]), (23, 0));
    for number in [5, 6, 64, 255] {
        assert_eq!(changed(&[(task(4) + 4, number)]), (23, 0));
    }
    // each once still, and in order
    assert_eq!(changed(&[(task(3) + 4, 0), (task(4) + 4, 2)]), (0, 0));
}

#[test]
fn counts_that_do_not_add_up() {
    for count in [0, 1, 3, 255] {
        assert_eq!(changed(&[(core(1) + 2, count)]), (23, 0));
    }
    // right in eight bits only
    assert_eq!(changed(&[(core(0) + 2, 131), (core(1) + 2, 130)]), (23, 0));
    // none at all
    let mut bytes = MIXED_GROUPED[..58].to_vec();
    bytes[6] = 0;
    assert_eq!(refusal(&bytes), (23, 0));
}

#[test]
fn out_of_priority_order() {
    // equal periods, the numbers swapped
    assert_eq!(changed(&[(task(1) + 4, 4), (task(2) + 4, 1)]), (23, 0));
    // a longer period first
    assert_eq!(changed(&[(task(0), 9)]), (23, 0));
    // a tie that the numbers 3 and 1 do not keep
    assert_eq!(changed(&[(task(0), 8)]), (23, 0));
    // counts that add up and put 4 with the other core, or 2 with this one
    assert_eq!(changed(&[(core(0) + 2, 2), (core(1) + 2, 3)]), (23, 0));
    assert_eq!(changed(&[(core(0) + 2, 4), (core(1) + 2, 1)]), (23, 0));
}

#[test]
fn order_stands_after_budget() {
    let swapped = [(task(1) + 4, 4), (task(2) + 4, 1)];
    let with = |change: (usize, u8)| changed(&[swapped[0], swapped[1], change]);
    assert_eq!(with((task(4), 0)), (7, 4));
    assert_eq!(with((task(4) + 2, 0)), (8, 4));
    assert_eq!(with((task(4) + 2, 10)), (8, 4));
    // and before the rest
    assert_eq!(with((task(4) + 6, 0)), (23, 0));
    assert_eq!(with((core(0), 0)), (23, 0));
    assert_eq!(with((task(4) + 6, 3)), (23, 0));
    assert_eq!(with((task(4) + 2, 8)), (23, 0));
}

#[test]
fn places_are_positions() {
    assert_eq!(changed(&[(task(3), 0)]), (7, 3));
    assert_eq!(changed(&[(task(3) + 2, 6)]), (8, 3));
    assert_eq!(changed(&[(task(3) + 6, 0)]), (11, 3));
    assert_eq!(changed(&[(core(1) + 4, 0)]), (11, 65));
    assert_eq!(changed(&[(task(4) + 6, 4)]), (12, 4));
    // position 4 is task 0 and position 2 task 4: the first one by position
    assert_eq!(changed(&[(task(4) + 6, 4), (task(2) + 6, 4)]), (12, 2));
    assert_eq!(changed(&[(task(0) + 6, 2), (task(2) + 6, 1)]), (12, 0));
    assert_eq!(changed(&[(task(2) + 6, 1)]), (13, 2));
    assert_eq!(changed(&[(task(4) + 2, 8)]), (14, 65));
    assert_eq!(changed(&[(task(1) + 2, 6)]), (14, 64));
}

/// A count of 0 is 10 where the counts add up and the order holds.
#[test]
fn bare_cores() {
    let with_counts = |counts: [u8; 2]| {
        let mut bytes = moved(&listed());
        bytes[6] = 2;
        bytes[40] = counts[0];
        bytes.extend([3, 0, counts[1], 0, 1, 0, 0, 0]);
        refusal(&bytes)
    };
    assert_eq!(with_counts([3, 0]), (10, 65));
    assert_eq!(with_counts([0, 3]), (10, 64));
    assert_eq!(with_counts([0, 0]), (23, 0));
    assert_eq!(
        refusal(b"TSH\x02\x00\x00\x01\x00\x01\x00\x00\x00\x01\x00\x00\x00"),
        (10, 64)
    );
    assert_eq!(
        refusal(b"TSH\x02\x00\x00\x01\x00\x01\x00\x01\x00\x01\x00\x00\x00"),
        (23, 0)
    );
    // no tasks are in order
    assert_eq!(refusal(b"TSH\x02\x00\x00\x02\x00\x01\x00\x00\x00\x01\x00\x00\x00\x01\x00\x00\x00\x01\x00\x00\x00"), (10, 64));
}

#[test]
fn outputs_too_short() {
    for sheet in [&mixed()[..], &MIXED_GROUPED, b"TSH\x01\x00\x00\x00\x00"] {
        for room in [0, 8, 74, 711, 712, 713] {
            let mut out = vec![0xA5; room];
            let answer = move_sheet(sheet, &mut out);
            if room < 712 {
                assert_eq!((answer.refusal, answer.place, answer.length), (16, 0, 0));
                assert!(out.iter().all(|&byte| byte == 0xA5));
            } else {
                assert_eq!((answer.refusal, answer.length as usize), (0, sheet.len()));
            }
        }
    }
}

/// All lists of three with members below `end`.
fn triples(end: u8) -> impl Iterator<Item = [u8; 3]> {
    (0..end).flat_map(move |a| (0..end).flat_map(move |b| (0..end).map(move |c| [a, b, c])))
}

/// Of three tasks on two cores, the accepted sheets of version 2 are those that
/// the accepted sheets of version 1 move to, and no two move to the same.
#[test]
fn one_for_one() {
    let period = |long: u8| 4 + 4 * long as u64;
    let factor = |long: u8| 1 + long as u64;
    let mut moved_to = Vec::new();
    for (cores, longs) in triples(2).flat_map(|cores| triples(2).map(move |longs| (cores, longs))) {
        let tasks: Vec<_> = (0..3)
            .map(|i| (period(longs[i]), 1, cores[i] as usize, factor(longs[i])))
            .collect();
        let sheet = sheet(&tasks, &[(4, 1), (4, 1)]).write();
        let bare = cores == [0; 3] || cores == [1; 3];
        assert_eq!(check(&sheet).refusal, if bare { 10 } else { 0 });
        if !bare {
            let grouped = moved(&sheet);
            assert_eq!(moved(&grouped), sheet);
            moved_to.push(grouped);
        }
    }
    let moves = moved_to.len();
    moved_to.sort();
    moved_to.dedup();
    assert_eq!((moves, moved_to.len()), (48, 48));

    let mut accepted = Vec::new();
    for (numbers, longs) in triples(4).flat_map(|n| triples(2).map(move |longs| (n, longs))) {
        for counts in (0..5).flat_map(|a| (0..5).map(move |b| [a, b])) {
            let mut bytes = b"TSH\x02\x00\x03\x02\x00".to_vec();
            for i in 0..3 {
                bytes.extend([period(longs[i]) as u8, 0, 1, 0, numbers[i], 0]);
                bytes.extend([factor(longs[i]) as u8, 0, 0, 0]);
            }
            for count in counts {
                bytes.extend([4, 0, count, 0, 1, 0, 0, 0]);
            }
            match check(&bytes).refusal {
                0 => accepted.push(bytes),
                refusal => assert!(matches!(refusal, 10 | 23)),
            }
        }
    }
    accepted.sort();
    assert_eq!(accepted, moved_to);
}
