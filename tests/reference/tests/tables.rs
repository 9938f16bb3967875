//! Tables 2 to 4 of the paper on accelerated simply periodic sets.

mod ten_tasks;

use reference::*;
use ten_tasks::{counts, group, job_list, never_late, EXACT};

const SR_2: Construction = Construction::Sr { base: 2 };
const DCT: Construction = Construction::Dct;

fn fractions(list: [(u128, u128); 3]) -> Vec<Fraction> {
    list.iter().map(|&(a, b)| Fraction::new(a, b)).collect()
}

/// Table 2: the accelerated periods of (2,1), (11,2), (17,4) for each pivot.
#[test]
fn accelerated_periods() {
    let periods = [2, 11, 17];
    assert_eq!(sr(2, &periods, 0), fractions([(2, 1), (8, 1), (16, 1)]));
    assert_eq!(sr(2, &periods, 1), fractions([(11, 8), (11, 1), (11, 1)]));
    assert_eq!(sr(2, &periods, 2), fractions([(17, 16), (17, 2), (17, 1)]));
    assert_eq!(dct(&periods, 0), fractions([(2, 1), (10, 1), (10, 1)]));
    assert_eq!(dct(&periods, 1), fractions([(11, 6), (11, 1), (11, 1)]));
    assert_eq!(dct(&periods, 2), fractions([(17, 10), (17, 2), (17, 1)]));
}

/// Whether the planner puts the group on one core.
fn planned(set: u16) -> bool {
    plan(&job_list(set), 1, 0, &mut [0; 712]).refusal == 0
}

/// Whether some pivot of a construction brings the load to one or below: the
/// sum of e * (last / period) is at most the last accelerated period.
fn passes(construction: Construction, set: u16) -> bool {
    let periods: Vec<u64> = group(set).iter().map(|task| task.0 as u64).collect();
    (0..periods.len()).any(|pivot| {
        let accelerated = construction.accelerated(&periods, pivot);
        let last = accelerated[periods.len() - 1];
        let demand =
            |(task, period): (&(u16, u16), &Fraction)| task.1 as u128 * last.ratio(*period).exact();
        let demands = group(set).iter().zip(&accelerated).map(demand).sum();
        Fraction::whole(demands) <= last
    })
}

#[test]
fn partitions_of_ten_tasks() {
    assert_eq!(counts(&|set| never_late(margin, set)), EXACT);
    let by_either = |set| passes(SR_2, set) || passes(DCT, set);
    assert_eq!(counts(&by_either), [(2100, 470), (1575, 12), (2520, 0)]);
    // base 3 adds none
    assert_eq!(counts(&planned), [(2100, 470), (1575, 12), (2520, 0)]);
    let by_sr = |set| passes(SR_2, set);
    assert_eq!(counts(&by_sr), [(2100, 268), (1575, 2), (2520, 0)]);
    let by_dct = |set| passes(DCT, set);
    assert_eq!(counts(&by_dct), [(2100, 462), (1575, 11), (2520, 0)]);
}
