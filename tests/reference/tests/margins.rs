//! Margins of small lists, and the refusals before them.

use reference::*;

/// A job list.
fn jobs(list: &[(u16, u16)]) -> Vec<u8> {
    let entry = |&(p, e): &(u16, u16)| [p.to_le_bytes(), e.to_le_bytes()].concat();
    list.iter().flat_map(entry).collect()
}

fn margins(list: &[(u16, u16)]) -> Vec<i32> {
    let bytes = jobs(list);
    let margin = |number: usize| {
        let answer = margin(&bytes, number as u64);
        assert_eq!((answer.refusal, answer.place), (0, 0));
        answer.margin
    };
    (0..list.len()).map(margin).collect()
}

#[track_caller]
fn refused(list: &[u8], number: u64, refusal: u8, place: u16) {
    let answer = margin(list, number);
    assert_eq!((answer.refusal, answer.place), (refusal, place));
    assert_eq!(answer.margin, 0);
}

#[test]
fn card() {
    assert_eq!(margins(&[(5, 2), (7, 4), (35, 1)]), [3, -1, 0]);
    // the order of the list is that of the answers only
    assert_eq!(margins(&[(35, 1), (7, 4), (5, 2)]), [0, -1, 3]);
}

#[test]
fn a_job_alone() {
    assert_eq!(margins(&[(1, 1)]), [0]);
    assert_eq!(margins(&[(60_000, 1)]), [59_999]);
    assert_eq!(margins(&[(60_000, 60_000)]), [0]);
}

/// Of equal periods the lower place is above.
#[test]
fn ties() {
    assert_eq!(margins(&[(4, 1), (4, 2)]), [3, 1]);
    assert_eq!(margins(&[(4, 2), (4, 1)]), [2, 1]);
    assert_eq!(margins(&[(4, 3), (4, 1), (4, 1)]), [1, 0, -1]);
    assert_eq!(margins(&[(9, 2), (4, 3), (9, 1), (4, 1)]), [-5, 1, -6, 0]);
}

/// The smallest t, though a later one has demand at most t as well.
#[test]
fn the_smallest_t() {
    assert_eq!(margins(&[(10, 1), (30, 1)]), [9, 28]);
    // at 9, 10 and 11 the demand is 9, 9 and 13
    assert_eq!(margins(&[(10, 4), (30, 5)]), [6, 21]);
}

/// Some t before the period is met, and the period is not.
#[test]
fn met_before_the_period_only() {
    // demand 4 at 4, and 6 at 5
    assert_eq!(margins(&[(4, 2), (5, 2)]), [2, 1]);
}

#[test]
fn far_below_zero() {
    let last = |list: &[(u16, u16)]| margin(&jobs(list), list.len() as u64 - 1).margin;
    // the demand at 60,000 is 64 times 60,000
    assert_eq!(last(&[(60_000, 60_000); 64]), -63 * 60_000);
    // 63 jobs each ask for 59,999 ticks twice in 60,000; no list asks for more
    let mut list = [(59_999, 59_999); 64];
    list[63] = (60_000, 60_000);
    assert_eq!(last(&list), -126 * 59_999);
}

#[test]
fn refusals() {
    let bad_period = jobs(&[(5, 6), (60_001, 1), (0, 1)]);
    let bad_budget = jobs(&[(5, 5), (7, 0), (9, 10)]);
    refused(&[&bad_period[..], &[1]].concat(), 9, 5, 0);
    refused(&[0; 260], 99, 4, 0);
    refused(&[0; 259], 99, 5, 0);
    refused(&bad_period, 9, 7, 1);
    refused(&bad_budget, 9, 8, 1);
    refused(&bad_budget, 0, 8, 1);
}

#[test]
fn numbers_past_the_list() {
    for number in [0, 1, u64::MAX] {
        refused(&[], number, 17, 0);
    }
    let list = jobs(&[(5, 2), (7, 4), (35, 1)]);
    for number in [3, 4, 64, 256, 1 << 32, u64::MAX] {
        refused(&list, number, 17, 0);
    }
    refused(&jobs(&[(64, 1); 64]), 64, 17, 0);
    assert_eq!(margin(&jobs(&[(64, 1); 64]), 63).margin, 0);
}
