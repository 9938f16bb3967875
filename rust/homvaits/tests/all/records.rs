//! The typed records of a sheet are held to the proved listing.

use std::fmt::Write;

use crate::common::{sheets, Rng};
use homvaits::{check, list, move_sheet, plan, Core, Job};
use homvaits::{Place, Refusal, Sheet, Word, LISTING_MAX};

fn text_of(sheet: &Sheet) -> String {
    let mut text = String::new();
    let (tasks, cores) = (sheet.tasks(), sheet.cores());
    writeln!(
        text,
        "TSH {} tasks {} cores {}",
        sheet.version(),
        tasks.len(),
        cores.len()
    )
    .unwrap();
    for t in tasks {
        writeln!(
            text,
            "task {} core {} period {} budget {} factor {} within {}",
            t.number, t.core, t.period, t.budget, t.factor, t.within
        )
        .unwrap();
    }
    for c in cores {
        writeln!(
            text,
            "core {} pivot {} divisor {} load {}",
            c.number, c.pivot, c.divisor, c.load
        )
        .unwrap();
    }
    text
}

#[test]
fn tasks_and_cores_are_those_of_the_listing() {
    let mut rng = Rng(8);
    let mut out = [0; LISTING_MAX];
    let (mut most, mut largest, mut longest) = (0, 0, 0);
    let (planned, made) = sheets(1, |sheet| {
        assert_eq!(text_of(&sheet), list(sheet.as_bytes(), &mut out));
        let moved = move_sheet(sheet.as_bytes()).unwrap();
        assert_eq!(text_of(&moved), list(moved.as_bytes(), &mut out));
        let stroked = rng.with_strokes(&sheet);
        assert_eq!(text_of(&stroked), list(stroked.as_bytes(), &mut out));
        most += sheet.cores().filter(|core| core.load == 1000).count();
        largest = sheet
            .tasks()
            .map(|task| task.factor)
            .fold(largest, u32::max);
        longest = longest.max(sheet.as_bytes().len());
    });
    println!(
        "{planned} planned, {made} made, {most} cores at 1000, factors to {largest}, {longest} bytes"
    );
    assert!(planned > 2000 && made > 1000);
    assert!(most > 0 && largest > 100_000 && longest > 600);
}

#[test]
fn a_load_is_rounded_up_and_an_exact_one_stays() {
    let load = |period, budget| {
        let sheet = plan(&[Job { period, budget }], 1, 0).unwrap();
        let core = sheet.cores().next().unwrap();
        core.load
    };
    assert_eq!(load(2000, 1999), 1000);
    assert_eq!(load(1000, 999), 999);
    assert_eq!(load(2, 1), 500);
    assert_eq!(load(60_000, 1), 1);
}

#[test]
fn a_checked_sheet_has_the_bytes_it_was_checked_from() {
    sheets(2, |sheet| {
        let bytes = sheet.as_bytes();
        assert_eq!(Sheet::check(bytes).unwrap(), sheet);
        assert_eq!(Sheet::try_from(bytes).unwrap().as_ref(), bytes);
        let counts = check(bytes).unwrap();
        assert_eq!(usize::from(counts.tasks), sheet.tasks().len());
        assert_eq!(usize::from(counts.cores), sheet.cores().len());
    });
}

#[test]
fn a_moved_sheet_has_the_same_records_and_comes_back() {
    let mut mixed = 0;
    sheets(5, |sheet| {
        let moved = move_sheet(sheet.as_bytes()).unwrap();
        assert_eq!((sheet.version(), moved.version()), (1, 2));
        assert_eq!(Sheet::check(moved.as_bytes()).unwrap(), moved);
        assert_eq!(move_sheet(moved.as_bytes()).unwrap(), sheet);
        assert!(sheet.tasks().eq(moved.tasks()));
        assert!(sheet.cores().eq(moved.cores()));
        assert!(sheet.tasks().rev().eq(moved.tasks().rev()));
        for core in 0..=sheet.cores().len() as u8 {
            assert_eq!(Core::start(&sheet, core), Core::start(&moved, core));
        }
        mixed += usize::from(sheet.as_bytes()[8..] != moved.as_bytes()[8..]);
    });
    assert!(mixed > 2000);
}

#[test]
fn strokes_are_those_of_version_3_and_of_one_tick_in_the_others() {
    let mut rng = Rng(9);
    let mut longest = 0;
    sheets(10, |sheet| {
        let moved = move_sheet(sheet.as_bytes()).unwrap();
        assert!(sheet.tasks().chain(moved.tasks()).all(|t| t.stroke == 1));
        let stroked = rng.with_strokes(&sheet);
        assert_eq!(stroked.version(), 3);
        // nothing else differs
        assert!(sheet.cores().eq(stroked.cores()));
        for (task, mut other) in sheet.tasks().zip(stroked.tasks()) {
            let at = 8 + 10 * usize::from(task.number) + 5;
            assert_eq!(other.stroke, stroked.as_bytes()[at]);
            longest = longest.max(other.stroke);
            other.stroke = 1;
            assert_eq!(task, other);
        }
        for core in 0..sheet.cores().len() as u8 {
            let started = Core::start(&stroked, core).unwrap();
            let plain = Core::start(&sheet, core).unwrap();
            assert_eq!((started.stroke(), plain.stroke()), (None, None));
            for (task, other) in started.tasks().iter().zip(plain.tasks()) {
                let record = stroked.tasks().nth(task.number.into()).unwrap();
                assert_eq!((task.stroke, other.stroke), (record.stroke, 1));
                assert_eq!((task.number, task.period), (other.number, other.period));
            }
        }
    });
    assert!(longest > 200, "{longest}");
}

#[test]
fn a_sheet_of_version_3_is_not_moved() {
    let mut rng = Rng(11);
    let version = Refusal {
        word: Word::Version,
        place: Place::Whole,
    };
    sheets(12, |sheet| {
        let stroked = rng.with_strokes(&sheet);
        assert_eq!(move_sheet(stroked.as_bytes()), Err(version));
    });
}

#[test]
fn a_damaged_sheet_is_refused_as_its_listing_says() {
    let mut rng = Rng(3);
    let mut out = [0; LISTING_MAX];
    let mut seen = [0; 26];
    sheets(4, |sheet| {
        let mut bytes = match rng.range(0, 2) {
            0 => sheet.as_bytes().to_vec(),
            1 => move_sheet(sheet.as_bytes()).unwrap().as_bytes().to_vec(),
            _ => rng.with_strokes(&sheet).as_bytes().to_vec(),
        };
        let at = rng.range(0, bytes.len() as u64 - 1) as usize;
        let top = [7, 255][rng.range(0, 1) as usize];
        bytes[at] = rng.range(0, top) as u8;
        if let Err(refusal) = Sheet::check(&bytes) {
            let line = format!(
                "refused {} place {}\n",
                refusal.number(),
                refusal.place.number()
            );
            assert_eq!(list(&bytes, &mut out), line);
            assert_eq!(check(&bytes).unwrap_err(), refusal);
            let moved = move_sheet(&bytes).unwrap_err();
            match bytes.starts_with(b"TSH\x03\x00") {
                true => assert_eq!(moved.word, Word::Version),
                false => assert_eq!(moved, refusal),
            }
            seen[usize::from(refusal.number())] += 1;
        }
    });
    println!("refusals by number: {seen:?}");
    assert!(seen.iter().filter(|&&times| times > 0).count() > 10);
    assert!(seen[23] > 0 && seen[25] > 0);
}
