//! The bench cards A to M of document 01, and the loads of document 02: small
//! inputs and what they must give.

use reference::*;

/// A job list.
fn jobs(list: &[(u16, u16)]) -> Vec<u8> {
    let entry = |&(p, e): &(u16, u16)| [p.to_le_bytes(), e.to_le_bytes()].concat();
    list.iter().flat_map(entry).collect()
}

/// The listing's sheet (card B) with another last budget and factor.
fn sheet_b(budget: u64, factor: u64) -> Vec<u8> {
    let task = |(period, budget, factor)| TaskRecord {
        period,
        budget,
        core: 0,
        stroke: 1,
        factor,
    };
    Sheet {
        tasks: [(3, 1, 1), (7, 1, 2), (13, budget, factor)]
            .map(task)
            .to_vec(),
        cores: vec![CoreRecord {
            pivot: 3,
            divisor: 1,
        }],
    }
    .write()
}

fn refused(number: u8, place: u16) -> CheckAnswer {
    CheckAnswer {
        refusal: number,
        place,
        tasks: 0,
        cores: 0,
    }
}

fn accepted(tasks: u8, cores: u8) -> CheckAnswer {
    CheckAnswer {
        refusal: 0,
        place: 0,
        tasks,
        cores,
    }
}

/// The sheet that the planner makes with limit 1 and start 0.
fn planned(list: &[(u16, u16)]) -> Result<Vec<u8>, (u8, u16)> {
    let mut out = vec![0xA5; 800];
    let answer = plan(&jobs(list), 1, 0, &mut out);
    if answer.refusal != 0 {
        assert!(out.iter().all(|&byte| byte == 0xA5));
        return Err((answer.refusal, answer.place));
    }
    assert!(out[answer.length as usize..].iter().all(|&b| b == 0xA5));
    out.truncate(answer.length as usize);
    assert_eq!(check(&out), accepted(answer.tasks, answer.cores));
    Ok(out)
}

fn factors(sheet: &Sheet) -> Vec<u64> {
    sheet.tasks.iter().map(|task| task.factor).collect()
}

/// A running core for tests.
struct Run(Core);

impl Run {
    fn release(&mut self, number: u64) -> (u8, u16) {
        let answer = release(self.0, number);
        self.0 = answer.core;
        (answer.refusal, answer.place)
    }

    fn ticks(&mut self, count: usize) -> Vec<u8> {
        let mut tick = || {
            let answer = tick(self.0);
            assert_eq!(answer.refusal, 0);
            self.0 = answer.core;
            answer.task
        };
        (0..count).map(|_| tick()).collect()
    }

    fn left(&self, number: u8) -> u16 {
        let task = self.0.used().iter().find(|task| task.number == number);
        task.unwrap().left
    }
}

fn card_i() -> Run {
    let start = start_sheet(&planned(&[(5, 1), (9, 7)]).unwrap(), 0);
    assert_eq!(start.refusal, 0);
    Run(start.core)
}

#[test]
fn a_header_only() {
    assert_eq!(check(b"TSH\x01\x00\x00\x00\x00"), accepted(0, 0));
}

#[test]
fn b_listing() {
    let sheet = sheet_b(6, 4);
    assert_eq!(check(&sheet), accepted(3, 1));
    let text = "TSH 1 tasks 3 cores 1\n\
        task 0 core 0 period 3 budget 1 factor 1 within 3\n\
        task 1 core 0 period 7 budget 1 factor 2 within 6\n\
        task 2 core 0 period 13 budget 6 factor 4 within 12\n\
        core 0 pivot 3 divisor 1 load 1000\n";
    assert_eq!(String::from_utf8(list(&sheet)).unwrap(), text);
}

/// The load that is listed of a task alone on a core, at its own period.
fn listed_load(period: u64, budget: u64) -> String {
    let sheet = Sheet {
        tasks: vec![TaskRecord {
            period,
            budget,
            core: 0,
            stroke: 1,
            factor: 1,
        }],
        cores: vec![CoreRecord {
            pivot: period,
            divisor: 1,
        }],
    };
    let text = String::from_utf8(list(&sheet.write())).unwrap();
    text.trim_end().rsplit(' ').next().unwrap().to_string()
}

/// Document 02, N1: rounded up, and exact thousandths stay.
#[test]
fn loads_rounded_up() {
    assert_eq!(listed_load(2, 1), "500");
    assert_eq!(listed_load(3, 1), "334");
    assert_eq!(listed_load(60_000, 1), "1");
    assert_eq!(listed_load(1000, 999), "999");
    assert_eq!(listed_load(1001, 1000), "1000");
    assert_eq!(listed_load(2000, 1999), "1000");
    assert_eq!(listed_load(60_000, 59_940), "999");
    assert_eq!(listed_load(60_000, 59_941), "1000");
    assert_eq!(listed_load(60_000, 60_000), "1000");
}

#[test]
fn c_overload() {
    assert_eq!(check(&sheet_b(7, 4)), refused(14, 64));
    assert_eq!(list(&sheet_b(7, 4)), b"refused 14 place 64\n");
}

#[test]
fn d_stretch() {
    assert_eq!(check(&sheet_b(6, 5)), refused(12, 2));
}

#[test]
fn e_chain() {
    assert_eq!(check(&sheet_b(6, 3)), refused(13, 2));
}

#[test]
fn f_stub() {
    assert_eq!(check(&sheet_b(6, 4)[..7]), refused(1, 0));
}

#[test]
fn g_sr() {
    let sheet = accept(&planned(&[(2, 1), (11, 2), (17, 4)]).unwrap()).unwrap();
    assert_eq!((sheet.cores[0].pivot, sheet.cores[0].divisor), (2, 1));
    assert_eq!(factors(&sheet), [1, 4, 8]);
}

#[test]
fn h_no_fit() {
    assert_eq!(planned(&[(10, 4), (15, 9)]), Err((15, 1)));
}

#[test]
fn i_dct() {
    let sheet = accept(&planned(&[(5, 1), (9, 7)]).unwrap()).unwrap();
    assert_eq!((sheet.cores[0].pivot, sheet.cores[0].divisor), (9, 2));
    assert_eq!(factors(&sheet), [1, 2]);
    assert_eq!([sheet.within(0), sheet.within(1)], [4, 9]);
}

#[test]
fn j_on_time() {
    let mut run = card_i();
    assert_eq!(run.release(0), (0, 0));
    assert_eq!(run.release(1), (0, 0));
    assert_eq!(run.ticks(5), [0, 1, 1, 1, 1]);
    assert_eq!(run.release(0), (0, 0));
    assert_eq!(run.ticks(3), [0, 1, 1]);
    assert_eq!(run.left(1), 1);
    assert_eq!(run.ticks(1), [1]);
    assert_eq!(run.left(1), 0);
}

#[test]
fn k_early() {
    let mut run = card_i();
    assert_eq!(run.release(0), (0, 0));
    run.ticks(4);
    assert_eq!(run.release(0), (18, 0));
}

#[test]
fn l_late() {
    let mut run = Run(start_list(&jobs(&[(5, 2), (7, 4)])).core);
    assert_eq!(run.release(0), (0, 0));
    assert_eq!(run.release(1), (0, 0));
    run.ticks(5);
    assert_eq!(run.release(0), (0, 0));
    run.ticks(2);
    assert_eq!(run.release(1), (19, 1));
}

#[test]
fn m_ring_order() {
    assert_eq!(ring_order(&[7, 16, 21]), [1, 2, 0]);
}
