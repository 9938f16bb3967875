//! The ten tasks of Table 3 of the paper on accelerated simply periodic sets,
//! and how many of their partitions pass, as Table 4 counts them.

use reference::MarginAnswer;

/// Table 3: ten tasks.
const TASKS: [(u16, u16); 10] = [
    (7, 2),
    (21, 3),
    (29, 9),
    (49, 15),
    (64, 20),
    (66, 16),
    (160, 32),
    (235, 72),
    (260, 25),
    (450, 120),
];

/// The tasks in this set of bits, which are in priority order.
pub fn group(set: u16) -> Vec<(u16, u16)> {
    (0..10)
        .filter(|i| set >> i & 1 == 1)
        .map(|i| TASKS[i])
        .collect()
}

/// The group as a job list.
pub fn job_list(set: u16) -> Vec<u8> {
    group(set)
        .iter()
        .flat_map(|(p, e)| [p.to_le_bytes(), e.to_le_bytes()].concat())
        .collect()
}

/// Whether every margin of the group is zero or more.
pub fn never_late(margin: fn(&[u8], u64) -> MarginAnswer, set: u16) -> bool {
    let list = job_list(set);
    (0..set.count_ones() as u64).all(|number| {
        let answer = margin(&list, number);
        assert_eq!(answer.refusal, 0);
        answer.margin >= 0
    })
}

/// Table 4's first row, where the test is exact.
pub const EXACT: [(u32, u32); 3] = [(2100, 763), (1575, 70), (2520, 9)];

/// How many partitions into groups of these sizes there are, and how many of
/// them pass group by group.
fn count(mut sizes: [u32; 3], passes: &dyn Fn(u16) -> bool) -> (u32, u32) {
    sizes.sort();
    let passing: Vec<bool> = (0..1024).map(|set| set == 0 || passes(set)).collect();
    let (mut all, mut passed) = (0, 0);
    for a in 0..1024u16 {
        for b in a + 1..1024 {
            let c = 1023 ^ (a | b);
            // each partition once: a < b < c
            if a & b != 0 || c < b {
                continue;
            }
            let groups = [a, b, c];
            let mut found = groups.map(u16::count_ones);
            found.sort();
            if found == sizes {
                all += 1;
                passed += groups.iter().all(|&g| passing[g as usize]) as u32;
            }
        }
    }
    (all, passed)
}

/// Table 4: for each of three sizes of groups, how many partitions there are
/// and how many of them pass.
pub fn counts(passes: &dyn Fn(u16) -> bool) -> [(u32, u32); 3] {
    [[4, 3, 3], [4, 4, 2], [5, 3, 2]].map(|sizes| count(sizes, passes))
}
