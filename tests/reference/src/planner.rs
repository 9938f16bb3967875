//! The planner: first fit round the ring, each core by Sr on base 2, Sr on
//! base 3 or DCT.

use crate::jobs::{self, Job};
use crate::sheet::{load, CoreRecord, Sheet, TaskRecord, LONGEST_SHEET};
use crate::{refuse_if, Fraction, Outcome, PlanAnswer, Refusal, LARGEST_FACTOR};

pub fn plan(list: &[u8], limit: u64, start: u64, out: &mut [u8]) -> PlanAnswer {
    plan_by(&ROUNDS, list, limit, start, out)
}

/// The planner with other rounds.
pub fn plan_by(
    rounds: &[Round],
    list: &[u8],
    limit: u64,
    start: u64,
    out: &mut [u8],
) -> PlanAnswer {
    match planned(rounds, list, limit, start, out.len()) {
        Err(refusal) => refusal.into(),
        Ok(sheet) => {
            let bytes = sheet.write();
            out[..bytes.len()].copy_from_slice(&bytes);
            PlanAnswer {
                tasks: sheet.tasks.len() as u8,
                cores: sheet.cores.len() as u8,
                length: bytes.len() as u16,
                ..PlanAnswer::default()
            }
        }
    }
}

fn planned(rounds: &[Round], list: &[u8], limit: u64, start: u64, room: usize) -> Outcome<Sheet> {
    let jobs = jobs::read(list, limit)?;
    let in_order = start < jobs.len() as u64 || (jobs.is_empty() && start == 0);
    refuse_if(22, !in_order)?;
    refuse_if(16, room < LONGEST_SHEET)?;
    let cores = first_fit(rounds, &jobs, limit as usize, start as usize)?;
    Ok(written(rounds, &jobs, &cores))
}

/// The jobs of each core, in the order in which they came.
fn first_fit(
    rounds: &[Round],
    jobs: &[Job],
    limit: usize,
    start: usize,
) -> Outcome<Vec<Vec<usize>>> {
    let periods: Vec<u64> = jobs.iter().map(|job| job.period).collect();
    let ring = ring_order(&periods);
    let mut cores: Vec<Vec<usize>> = Vec::new();
    for step in 0..ring.len() {
        let job = ring[(start + step) % ring.len()];
        let passes_with = |core: &Vec<usize>| {
            let mut set = core.clone();
            set.push(job);
            figures(rounds, jobs, &set).is_some()
        };
        match cores.iter().position(passes_with) {
            Some(core) => cores[core].push(job),
            None if cores.len() < limit => cores.push(vec![job]),
            None => {
                return Err(Refusal {
                    number: 15,
                    place: job as u16,
                })
            }
        }
    }
    Ok(cores)
}

/// The sheet of jobs that are all placed on cores that pass.
fn written(rounds: &[Round], jobs: &[Job], cores: &[Vec<usize>]) -> Sheet {
    let mut factors = vec![0; jobs.len()];
    let mut homes = vec![0; jobs.len()];
    let mut records = Vec::new();
    for (number, set) in cores.iter().enumerate() {
        let (order, trial) = figures(rounds, jobs, set).expect("the set passes");
        for (job, factor) in order.into_iter().zip(trial.factors) {
            factors[job] = factor;
            homes[job] = number;
        }
        records.push(trial.core);
    }
    let task = |i: usize| TaskRecord {
        period: jobs[i].period,
        budget: jobs[i].budget,
        core: homes[i],
        stroke: 1,
        factor: factors[i],
    };
    Sheet {
        tasks: (0..jobs.len()).map(task).collect(),
        cores: records,
    }
}

/// The ring order of periods: by p over the largest power of two not above p,
/// smaller first, ties to the lower number.
pub fn ring_order(periods: &[u64]) -> Vec<usize> {
    let share = |p: u64| {
        let mut power = 1;
        while power * 2 <= p {
            power *= 2;
        }
        Fraction::new(p as u128, power as u128)
    };
    let mut order: Vec<usize> = (0..periods.len()).collect();
    order.sort_by_key(|&i| (share(periods[i]), i));
    order
}

/// The jobs of a set in priority order and the first trial whose load is at
/// most one.
fn figures(rounds: &[Round], jobs: &[Job], set: &[usize]) -> Option<(Vec<usize>, Trial)> {
    let mut order = set.to_vec();
    order.sort_by_key(|&i| (jobs[i].period, i));
    let periods: Vec<u64> = order.iter().map(|&i| jobs[i].period).collect();
    let passes = |trial: &Trial| {
        let budgets = order.iter().map(|&i| jobs[i].budget);
        let shares: Vec<(u64, u64)> = budgets.zip(trial.factors.iter().copied()).collect();
        load(&shares, trial.core) <= Fraction::whole(1)
    };
    let first = trials(rounds, &periods).find(passes)?;
    Some((order, first))
}

/// The construction that gives a core of these jobs its figures, if they pass.
pub fn construction_of(jobs: &[Job]) -> Option<Construction> {
    let set: Vec<usize> = (0..jobs.len()).collect();
    figures(&ROUNDS, jobs, &set).map(|(_, trial)| trial.construction)
}

/// A construction that is tried with each job of a set as pivot by priority.
#[derive(Clone, Copy, Debug, PartialEq, Eq)]
pub struct Round {
    pub construction: Construction,
    /// Whether a pivot with a divisor or factor above 120,000 is skipped.
    pub skips: bool,
}

/// The rounds in their order.
pub const ROUNDS: [Round; 3] = [
    Round {
        construction: Construction::Sr { base: 2 },
        skips: false,
    },
    Round {
        construction: Construction::Sr { base: 3 },
        skips: true,
    },
    Round {
        construction: Construction::Dct,
        skips: false,
    },
];

/// The written form of a construction with one pivot: Q, D and the factors in
/// priority order.
#[derive(Clone, Debug, PartialEq, Eq)]
pub struct Trial {
    pub construction: Construction,
    pub core: CoreRecord,
    pub factors: Vec<u64>,
}

/// The trials in their order, for periods in priority order.
pub fn trials<'a>(rounds: &'a [Round], periods: &'a [u64]) -> impl Iterator<Item = Trial> + 'a {
    rounds.iter().flat_map(move |round| {
        (0..periods.len())
            .map(|pivot| written_form(round.construction, periods, pivot))
            .filter(|trial| !(round.skips && has_large_figures(trial)))
    })
}

/// The first factor is 1, and D is Q over the first accelerated period.
fn written_form(construction: Construction, periods: &[u64], pivot: usize) -> Trial {
    let accelerated = construction.accelerated(periods, pivot);
    let (first, pivot) = (accelerated[0], periods[pivot]);
    let divisor = Fraction::whole(pivot as u128).ratio(first).exact() as u64;
    let factors = accelerated
        .iter()
        .map(|period| period.ratio(first).exact() as u64)
        .collect();
    Trial {
        construction,
        core: CoreRecord { pivot, divisor },
        factors,
    }
}

fn has_large_figures(trial: &Trial) -> bool {
    let large = |figure: u64| figure > LARGEST_FACTOR;
    large(trial.core.divisor) || trial.factors.iter().any(|&factor| large(factor))
}

/// A way from periods to accelerated periods.
#[derive(Clone, Copy, Debug, PartialEq, Eq)]
pub enum Construction {
    Sr { base: u64 },
    Dct,
}

impl Construction {
    /// From periods in priority order and a pivot to accelerated periods.
    pub fn accelerated(self, periods: &[u64], pivot: usize) -> Vec<Fraction> {
        match self {
            Construction::Sr { base } => sr(base, periods, pivot),
            Construction::Dct => dct(periods, pivot),
        }
    }
}

/// Sr: the accelerated periods are Q times the largest power of the base, whose
/// exponent may be negative, with Q * power <= p.
pub fn sr(base: u64, periods: &[u64], pivot: usize) -> Vec<Fraction> {
    let base = base as u128;
    let accelerated = |&p: &u64| {
        let p = Fraction::whole(p as u128);
        let mut period = Fraction::whole(periods[pivot] as u128);
        while period > p {
            period = period.divided_by(base);
        }
        while period.times(base) <= p {
            period = period.times(base);
        }
        period
    };
    periods.iter().map(accelerated).collect()
}

/// DCT: up from the pivot each is the previous one times floor(p / previous);
/// down from it each is the next one over ceil(next / p).
pub fn dct(periods: &[u64], pivot: usize) -> Vec<Fraction> {
    let p = |i: usize| Fraction::whole(periods[i] as u128);
    let mut accelerated = vec![p(pivot); periods.len()];
    for i in pivot + 1..periods.len() {
        let previous = accelerated[i - 1];
        accelerated[i] = previous.times(p(i).ratio(previous).floor());
    }
    for i in (0..pivot).rev() {
        let next = accelerated[i + 1];
        accelerated[i] = next.divided_by(next.ratio(p(i)).ceil());
    }
    accelerated
}
