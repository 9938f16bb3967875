//! What is timed: sheets of all sizes, full plans, one core, busy bench lists.

use inputs::*;
use reference::Core;

/// How sheets of a version are made: from an accepted one of version 1, one of a
/// kind of damage, one that is nearly right, random bytes of a length.
struct Version {
    sound: fn(&mut Rng, Vec<u8>) -> Vec<u8>,
    damages: usize,
    damaged: fn(&mut Rng, &[u8], usize) -> Vec<u8>,
    likely: fn(&mut Rng) -> Vec<u8>,
    random: fn(&mut Rng, usize) -> Vec<u8>,
}

const VERSIONS: [Version; 3] = [
    Version {
        sound: |_, sheet| sheet,
        damages: SHEET_DAMAGES,
        damaged: damaged_sheet,
        likely: likely_sheet,
        random: random_bytes,
    },
    Version {
        sound: |_, sheet| regrouped(&sheet).expect("the sheet is accepted"),
        damages: GROUPED_DAMAGES,
        damaged: damaged_grouped,
        likely: likely_grouped,
        random: random_grouped,
    },
    Version {
        sound: |rng, sheet| with_strokes(rng, &sheet),
        damages: STROKE_DAMAGES,
        damaged: damaged_strokes,
        likely: likely_strokes,
        random: random_strokes,
    },
];

/// So many sheets of version 1, accepted and refused ones of all sizes.
pub fn sheets(rng: &mut Rng, count: usize) -> Vec<Vec<u8>> {
    sheets_of(rng, 1, count)
}

/// Such sheets of this version.
pub fn sheets_of(rng: &mut Rng, version: usize, count: usize) -> Vec<Vec<u8>> {
    let version = &VERSIONS[version - 1];
    let planned: Vec<Vec<u8>> = (0..1000).map(|_| planned_sheet(rng)).collect();
    let sheet = |rng: &mut Rng| {
        let sound = if rng.once_in(2) {
            planned[rng.index(planned.len())].clone()
        } else {
            handmade_sheet(rng)
        };
        let sound = (version.sound)(rng, sound);
        match rng.below(20) {
            0..11 => sound,
            11..17 => {
                let kind = rng.index(version.damages);
                (version.damaged)(rng, &sound, kind)
            }
            17..19 => (version.likely)(rng),
            _ => {
                let length = rng.index(801);
                (version.random)(rng, length)
            }
        }
    };
    (0..count).map(|_| sheet(rng)).collect()
}

/// The accepted ones of version 1 among the sheets, the same in version 2, and
/// the same in version 3 with strokes of one tick.
pub fn all_versions(sheets: &[Vec<u8>]) -> [Vec<Vec<u8>>; 3] {
    let mut all = [const { Vec::new() }; 3];
    for sheet in sheets {
        let mut out = [0; 712];
        let answer = reference::move_sheet(sheet, &mut out);
        if answer.refusal == 0 && reference::version(sheet) == 1 {
            all[0].push(sheet.clone());
            all[1].push(out[..answer.length as usize].to_vec());
            all[2].push(with_short_strokes(sheet).expect("the sheet is accepted"));
        }
    }
    all
}

/// So many lists of 64 jobs whose plans have all 8 cores.
pub fn full_lists(rng: &mut Rng, count: usize) -> Vec<Vec<u8>> {
    let mut lists = Vec::new();
    while lists.len() < count {
        let list = job_list(rng, 64);
        let answer = reference::plan(&list, 8, 0, &mut [0; 712]);
        if answer.refusal == 0 && answer.cores == 8 {
            lists.push(list);
        }
    }
    lists
}

/// A core of so many tasks of which only the last is pending, for 60,000 ticks.
pub fn last_pending(count: u16) -> Core {
    let mut jobs: Vec<(u16, u16)> = (0..count - 1).map(|i| (1000 + i, 1)).collect();
    jobs.push((60_000, 60_000));
    let entry =
        |(period, budget): (u16, u16)| [period.to_le_bytes(), budget.to_le_bytes()].concat();
    let list: Vec<u8> = jobs.into_iter().flat_map(entry).collect();
    let start = reference::start_list(&list);
    let release = reference::release(start.core, count as u64 - 1);
    assert_eq!((start.refusal, release.refusal), (0, 0));
    release.core
}

/// The same core with that job finished.
pub fn none_pending(count: u16) -> Core {
    let finish = reference::finish(last_pending(count), count as u64 - 1);
    assert_eq!(finish.refusal, 0);
    finish.core
}

/// A core of so many tasks of which only the last is pending, for 60,000 ticks,
/// in strokes of 255 ticks, the first of them under way.
pub fn in_stroke(count: u16) -> Core {
    let mut core = last_pending(count);
    core.tasks[count as usize - 1].stroke = 255;
    let tick = reference::tick(core);
    assert_eq!((tick.refusal, tick.core.stroke_left), (0, 254));
    tick.core
}

/// So many lists of 64 jobs that ask for 70% to 95% of one core. The periods
/// are 100 to 60,000, as many in each doubling of 100; the load is dealt out
/// to the jobs by random weights of 1 to 100, and each budget rounded to the
/// nearest, but at least 1.
pub fn busy_lists(rng: &mut Rng, count: usize) -> Vec<Vec<u8>> {
    const MILLION: u64 = 1_000_000;
    let mut lists = Vec::new();
    while lists.len() < count {
        let load = rng.range(700, 950) * 1000;
        let weights = [(); 64].map(|()| rng.range(1, 100));
        let total: u64 = weights.iter().sum();
        let (mut list, mut asked) = (Vec::new(), 0);
        for weight in weights {
            let shortest = 100 << rng.below(10);
            let period = rng.range(shortest, (2 * shortest - 1).min(60_000));
            let share = period * load * weight / total;
            let budget = ((share + MILLION / 2) / MILLION).max(1);
            asked += budget * MILLION / period;
            list.extend((period as u16).to_le_bytes());
            list.extend((budget as u16).to_le_bytes());
        }
        if (700_000..=950_000).contains(&asked) {
            lists.push(list);
        }
    }
    lists
}
