//! The library, the plain code and the reference answer alike.

use bench::{plain, workload};
use inputs::*;
use reference::{Core, RowAnswer};

#[test]
fn check() {
    let mut rng = Rng::new(1);
    for version in 1..=3 {
        for sheet in workload::sheets_of(&mut rng, version, 20_000) {
            let expected = reference::check(&sheet);
            assert_eq!(plain::check(&sheet), expected);
            assert_eq!(binding::check(&sheet), expected);
        }
    }
    for sheet in archive(1, 30_000) {
        let expected = reference::check(&sheet);
        assert_eq!(plain::check(&sheet), expected);
        assert_eq!(binding::check(&sheet), expected);
    }
}

/// Accepted and damaged sheets of all versions.
fn sheets_of_all(rng: &mut Rng) -> Vec<Vec<u8>> {
    let mut sheets = workload::sheets(rng, 5000);
    let [_, grouped, strokes] = workload::all_versions(&sheets);
    for sheet in &strokes {
        let kind = rng.index(STROKE_DAMAGES);
        sheets.push(damaged_strokes(rng, sheet, kind));
    }
    sheets.extend(strokes);
    for sheet in &grouped {
        let kind = rng.index(GROUPED_DAMAGES);
        sheets.push(damaged_grouped(rng, sheet, kind));
    }
    sheets.extend(grouped);
    for length in 0..=800 {
        sheets.push(likely_grouped(rng));
        sheets.push(random_grouped(rng, length));
        sheets.push(likely_strokes(rng));
        sheets.push(random_strokes(rng, length));
        let strokes = stroke_sheet(rng);
        let kind = rng.index(STROKE_DAMAGES);
        sheets.push(damaged_strokes(rng, &strokes, kind));
        sheets.push(strokes);
        let likely = likely_sheet(rng);
        sheets.extend(regrouped(&likely));
        let kind = rng.index(SHEET_DAMAGES);
        let damaged = handmade_sheet(rng);
        let damaged = damaged_sheet(rng, &damaged, kind);
        sheets.extend(regrouped(&damaged));
    }
    sheets
}

type Move = fn(&[u8], &mut [u8]) -> reference::MoveAnswer;

#[test]
fn versions() {
    let mut rng = Rng::new(5);
    for sheet in sheets_of_all(&mut rng) {
        let expected = reference::check(&sheet);
        assert_eq!(plain::check(&sheet), expected);
        assert_eq!(binding::check(&sheet), expected);
        let room = rng.pick(&[0, 711, 712, 712, 712, 800]);
        let run = |call: Move| {
            let mut out = vec![165; room];
            (call(&sheet, &mut out), out)
        };
        let expected = run(reference::move_sheet);
        assert_eq!(run(plain::move_sheet), expected);
        assert_eq!(run(binding::move_sheet), expected);
    }
}

type Plan = fn(&[u8], u64, u64, &mut [u8]) -> reference::PlanAnswer;

#[test]
fn plan() {
    let mut rng = Rng::new(2);
    let mut lists = workload::full_lists(&mut rng, 5);
    for count in (0..=66).chain(0..=66) {
        let list = job_list(&mut rng, count);
        for kind in 0..JOB_DAMAGES {
            lists.push(damaged_jobs(&mut rng, &list, kind));
        }
        lists.push(list);
    }
    for list in lists {
        let (limit, start) = (any_number(&mut rng, 9), any_number(&mut rng, 64));
        for (limit, start) in [(8, 0), (limit, start)] {
            let room = rng.pick(&[711, 712, 800]);
            let run = |call: Plan| {
                let mut out = vec![165; room];
                (call(&list, limit, start, &mut out), out)
            };
            let expected = run(reference::plan);
            assert_eq!(run(plain::plan), expected);
            assert_eq!(run(binding::plan), expected);
        }
    }
}

#[test]
fn tick() {
    let mut rng = Rng::new(3);
    let any = (0..20_000).map(|turn| any_core(&mut rng, turn % CORE_DAMAGES));
    let timed = [
        workload::last_pending(64),
        workload::none_pending(64),
        workload::last_pending(8),
        workload::in_stroke(64),
        workload::in_stroke(8),
    ];
    for core in any.chain(timed) {
        let expected = reference::tick(core);
        assert_eq!(plain::tick(core), expected);
        assert_eq!(binding::tick(core), expected);
    }
}

type TickRow = fn(&mut [Core], &mut [u8]) -> RowAnswer;

#[test]
fn tick_row() {
    let mut rng = Rng::new(6);
    let mut rows = vec![
        vec![workload::last_pending(64); 8],
        vec![workload::none_pending(64); 8],
        vec![workload::in_stroke(64); 8],
    ];
    for turn in 0..2000 {
        let count = rng.index(65);
        let mut row: Vec<Core> = (0..count).map(|_| any_core(&mut rng, 0)).collect();
        for _ in 0..(turn % 3).min(count) {
            row[rng.index(count)] = foreign_core(&mut rng);
        }
        rows.push(row);
    }
    for row in rows {
        let count = row.len();
        let (fewer, more) = (count.saturating_sub(1), count + rng.index(9));
        let room = rng.pick(&[count, count, more, fewer]);
        let run = |call: TickRow| {
            let (mut row, mut answers) = (row.clone(), vec![165; room]);
            (call(&mut row, &mut answers), row, answers)
        };
        let expected = run(reference::tick_row);
        assert_eq!(run(plain::tick_row), expected);
        assert_eq!(run(binding::tick_row), expected);
    }
}

#[test]
fn margin() {
    let mut rng = Rng::new(4);
    let mut lists = workload::busy_lists(&mut rng, 3);
    for count in (0..=66).chain(0..=66) {
        let list = job_list(&mut rng, count);
        for kind in 0..JOB_DAMAGES {
            lists.push(damaged_jobs(&mut rng, &list, kind));
        }
        lists.push(list);
        let (list, _) = tight_list(&mut rng, count.clamp(1, 64), 300);
        lists.push(list);
    }
    for list in lists {
        for _ in 0..3 {
            let number = any_number(&mut rng, list.len() as u64 / 4);
            let expected = reference::margin(&list, number);
            assert_eq!(plain::margin(&list, number), expected);
            assert_eq!(binding::margin(&list, number), expected);
        }
    }
}
