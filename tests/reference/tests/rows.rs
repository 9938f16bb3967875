//! Rows of core states on one beat.

use reference::*;

/// A bench core of these jobs, all of them released.
fn busy(list: &[(u16, u16)]) -> Core {
    let entry = |&(p, e): &(u16, u16)| [p.to_le_bytes(), e.to_le_bytes()].concat();
    let list: Vec<u8> = list.iter().flat_map(entry).collect();
    let mut core = start_list(&list).core;
    for number in 0..core.count {
        let answer = release(core, number);
        assert_eq!(answer.refusal, 0);
        core = answer.core;
    }
    core
}

/// A state with more ticks left than its budget.
fn foreign() -> Core {
    let mut core = busy(&[(5, 1)]);
    core.tasks[0].left = 2;
    assert_eq!(tick(core).refusal, 21);
    core
}

/// Three states in form: two tasks, none, one.
fn three() -> [Core; 3] {
    [busy(&[(5, 1), (9, 7)]), Core::EMPTY, busy(&[(4, 2)])]
}

#[track_caller]
fn refused(row: &[Core], room: usize, refusal: u8, place: u64) {
    let (mut after, mut answers) = (row.to_vec(), vec![165; room]);
    let answer = tick_row(&mut after, &mut answers);
    assert_eq!(answer, RowAnswer { refusal, place });
    assert_eq!(after, row);
    assert_eq!(answers, vec![165; room]);
}

#[test]
fn answers_of_three_rows() {
    let mut row = three();
    let mut seen = Vec::new();
    for _ in 0..3 {
        let mut answers = [165; 3];
        assert_eq!(tick_row(&mut row, &mut answers), RowAnswer::default());
        seen.push(answers);
    }
    assert_eq!(seen, [[0, IDLE, 0], [1, IDLE, 0], [1, IDLE, IDLE]]);
    let left = |core: Core| Vec::from_iter(core.used().iter().map(|task| task.left));
    let ages = |core: Core| Vec::from_iter(core.used().iter().map(|task| task.age));
    assert_eq!(row.map(left), [vec![0, 5], vec![], vec![0]]);
    assert_eq!(row.map(ages), [vec![3, 3], vec![], vec![3]]);
}

/// Each state and answer byte is that of a tick by itself, the places past the
/// tasks with them.
#[test]
fn as_single_ticks() {
    let mut row = three();
    row[1].tasks[7].left = 9;
    for _ in 0..12 {
        let single = row.map(tick);
        let mut answers = [165; 5];
        assert_eq!(tick_row(&mut row, &mut answers), RowAnswer::default());
        assert_eq!(row, single.map(|answer| answer.core));
        assert_eq!(answers[..3], single.map(|answer| answer.task));
        assert_eq!(answers[3..], [165; 2]);
    }
}

#[test]
fn an_empty_row() {
    for room in [0, 3] {
        let mut answers = vec![165; room];
        assert_eq!(tick_row(&mut [], &mut answers), RowAnswer::default());
        assert_eq!(answers, vec![165; room]);
    }
}

#[test]
fn too_few_answer_bytes() {
    for room in 0..3 {
        refused(&three(), room, 24, 0);
    }
    // before 21
    refused(&[foreign()], 0, 24, 0);
    refused(&[Core::EMPTY, foreign()], 1, 24, 0);
}

#[test]
fn the_first_foreign_state() {
    for place in 0..3 {
        let mut row = three();
        row[place] = foreign();
        refused(&row, 3, 21, place as u64);
        refused(&row, 9, 21, place as u64);
        row[2] = foreign();
        refused(&row, 3, 21, place as u64);
    }
}

/// A position is not cut to fewer bits.
#[test]
fn far_places() {
    for place in [255, 256, 65_535, 65_536] {
        let mut row = vec![Core::EMPTY; place + 2];
        row[place].count = 65;
        refused(&row, place + 2, 21, place as u64);
    }
}
