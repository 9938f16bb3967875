//! The planner's rounds, Sr on base 2, Sr on base 3 and DCT, beside the two
//! rounds of document 01.

use reference::*;

const SR_2: Construction = Construction::Sr { base: 2 };
const SR_3: Construction = Construction::Sr { base: 3 };
const DCT: Construction = Construction::Dct;

const ROUNDS_OF_01: [Round; 2] = [ROUNDS[0], ROUNDS[2]];

/// The sheet that the planner makes with these rounds, or its refusal.
fn planned(
    rounds: &[Round],
    jobs: &[(u16, u16)],
    limit: u64,
    start: u64,
) -> Result<Sheet, (u8, u16)> {
    let entry = |&(p, e): &(u16, u16)| [p.to_le_bytes(), e.to_le_bytes()].concat();
    let list: Vec<u8> = jobs.iter().flat_map(entry).collect();
    let mut out = [0; LONGEST_SHEET];
    let answer = plan_by(rounds, &list, limit, start, &mut out);
    if answer.refusal != 0 {
        return Err((answer.refusal, answer.place));
    }
    Ok(accept(&out[..answer.length as usize]).expect("a plan is accepted"))
}

/// Pivot, divisor and factors of jobs on one core, or the refusal.
fn one_core(
    rounds: &[Round],
    jobs: &[(u16, u16)],
    start: u64,
) -> Result<(u64, u64, Vec<u64>), (u8, u16)> {
    let sheet = planned(rounds, jobs, 1, start)?;
    let factors = sheet.tasks.iter().map(|task| task.factor).collect();
    Ok((sheet.cores[0].pivot, sheet.cores[0].divisor, factors))
}

/// How many cores the jobs take from start 0.
fn cores(rounds: &[Round], jobs: &[(u16, u16)]) -> Result<usize, (u8, u16)> {
    planned(rounds, jobs, 8, 0).map(|sheet| sheet.cores.len())
}

/// The construction that gives a core of these jobs its figures.
fn construction(jobs: &[(u64, u64)]) -> Option<Construction> {
    let job = |&(period, budget): &(u64, u64)| Job { period, budget };
    construction_of(&jobs.iter().map(job).collect::<Vec<Job>>())
}

#[test]
fn jobs_in_thirds() {
    let jobs = [(2, 1), (20, 2), (55, 20)];
    for (start, refused) in [(0, 2), (1, 0), (2, 1)] {
        assert_eq!(one_core(&ROUNDS, &jobs, start), Ok((2, 1, vec![1, 9, 27])));
        assert_eq!(one_core(&ROUNDS_OF_01, &jobs, start), Err((15, refused)));
    }
    assert_eq!(cores(&ROUNDS_OF_01, &jobs), Ok(2));
}

/// Without base 3 these jobs take two cores.
#[test]
fn a_core_saved() {
    let jobs = [(5, 2), (7, 1), (14, 5)];
    assert_eq!(one_core(&ROUNDS, &jobs, 0), Ok((14, 3, vec![1, 1, 3])));
    assert_eq!(cores(&ROUNDS_OF_01, &jobs), Ok(2));
}

#[test]
fn first_round_that_passes() {
    assert_eq!(construction(&[(2, 1), (11, 2), (17, 4)]), Some(SR_2));
    assert_eq!(construction(&[(2, 1), (20, 2), (55, 20)]), Some(SR_3));
    assert_eq!(construction(&[(2, 1), (10, 5)]), Some(DCT));
    assert_eq!(construction(&[(10, 4), (15, 9)]), None);
}

/// The constructions and pivots that are tried for these periods.
fn tried(periods: &[u64]) -> Vec<(Construction, u64)> {
    trials(&ROUNDS, periods)
        .map(|trial| (trial.construction, trial.core.pivot))
        .collect()
}

#[test]
fn skipped_by_divisor_and_factor() {
    let periods = [1, 60_000];
    let accelerated = [Fraction::new(60_000, 177_147), Fraction::whole(60_000)];
    assert_eq!(sr(3, &periods, 1), accelerated);
    let not_skipped = [
        (SR_2, 1),
        (SR_2, 60_000),
        (SR_3, 1),
        (DCT, 1),
        (DCT, 60_000),
    ];
    assert_eq!(tried(&periods), not_skipped);
}

/// With the pivot 20,000 the divisor is 59,049 and the last factor 177,147.
#[test]
fn skipped_by_a_factor() {
    let periods = [1, 20_000, 60_000];
    let accelerated = [(20_000, 59_049), (20_000, 1), (60_000, 1)];
    let accelerated = accelerated.map(|(over, under)| Fraction::new(over, under));
    assert_eq!(sr(3, &periods, 1), accelerated);
    let all_pivots = |construction| periods.map(|pivot| (construction, pivot));
    let not_skipped = [&all_pivots(SR_2)[..], &[(SR_3, 1)], &all_pivots(DCT)].concat();
    assert_eq!(tried(&periods), not_skipped);
}

/// Base 3 comes before DCT, also where it gives lower factors, and so a smaller
/// w and a higher load.
#[test]
fn other_factors() {
    let jobs = [(2, 1), (6, 2), (12, 1)];
    assert_eq!(one_core(&ROUNDS_OF_01, &jobs, 0), Ok((2, 1, vec![1, 3, 6])));
    assert_eq!(one_core(&ROUNDS, &jobs, 0), Ok((2, 1, vec![1, 3, 3])));

    let last_lines = |rounds| {
        let sheet = planned(rounds, &jobs, 1, 0).expect("the jobs fit");
        let text = String::from_utf8(list(&sheet.write())).expect("ASCII");
        text.lines().skip(3).map(String::from).collect::<Vec<_>>()
    };
    let before = [
        "task 2 core 0 period 12 budget 1 factor 6 within 12",
        "core 0 pivot 2 divisor 1 load 917",
    ];
    let now = [
        "task 2 core 0 period 12 budget 1 factor 3 within 6",
        "core 0 pivot 2 divisor 1 load 1000",
    ];
    assert_eq!(last_lines(&ROUNDS_OF_01[..]), before);
    assert_eq!(last_lines(&ROUNDS[..]), now);
}

/// A core that takes one job more may leave no room for a later one.
#[test]
fn no_fit_by_a_fuller_core() {
    let jobs = [(16, 2), (5, 3), (27, 7), (23, 9), (12, 8), (9, 3), (25, 3)];
    let before = planned(&ROUNDS_OF_01, &jobs, 3, 5).expect("the jobs fit");
    assert_eq!(before.cores.len(), 3);
    assert_eq!(planned(&ROUNDS, &jobs, 3, 5), Err((15, 4)));

    let jobs = [(16, 7), (10, 1), (15, 5), (6, 4), (6, 2)];
    assert_eq!(cores(&ROUNDS_OF_01, &jobs), Ok(2));
    assert_eq!(cores(&ROUNDS, &jobs), Ok(3));
}
