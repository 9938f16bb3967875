//! The share of a core's time that tasks need at their real periods.

use crate::fields::Task;

/// The sum of budget / period in thousandths, rounded up; none where a period is 0. It is exact, so it is above 1000 exactly where the
/// sum is above one.
pub fn thousandths(tasks: &[Task]) -> Option<u64> {
    let parts: Vec<Part> = tasks.iter().map(Part::new).collect::<Option<_>>()?;
    let least: u64 = parts.iter().map(|part| part.over / part.under).sum();
    (least..).find(|&bound| !exceeds(&parts, bound))
}

/// A fraction with a denominator of 1 to 65,535.
#[derive(Clone, Copy)]
struct Part {
    over: u64,
    under: u64,
}

impl Part {
    fn new(task: &Task) -> Option<Part> {
        (task.period != 0).then(|| Part {
            over: 1000 * u64::from(task.budget),
            under: task.period.into(),
        })
    }

    /// Takes the whole part out.
    fn take_whole(&mut self) -> i64 {
        let whole = self.over / self.under;
        self.over %= self.under;
        whole as i64
    }
}

/// Whether a sum of fractions is above a whole number. The difference is looked at bit by bit, since its denominator may be as large as
/// the product of all of them.
fn exceeds(parts: &[Part], bound: u64) -> bool {
    let mut parts = parts.to_vec();
    let mut whole = -(bound as i64);
    whole += parts.iter_mut().map(Part::take_whole).sum::<i64>();
    // a difference that is not 0 is above 2^-16 to the power of the number of parts, and at most 255 parts make less than 2^8
    for _ in 0..=16 * parts.len() + 8 {
        let some = parts.iter().filter(|part| part.over > 0).count() as i64;
        if whole >= 0 {
            return whole + some > 0;
        }
        if whole + some <= 0 {
            return false;
        }
        parts.iter_mut().for_each(|part| part.over *= 2);
        whole = 2 * whole + parts.iter_mut().map(Part::take_whole).sum::<i64>();
    }
    false
}

#[cfg(test)]
mod tests {
    use super::*;

    fn of(jobs: &[(u16, u16)]) -> Option<u64> {
        let task = |&(period, budget): &(u16, u16)| Task {
            position: 0,
            number: 0,
            core: Some(0),
            period,
            budget,
            stroke: 1,
            factor: 1,
        };
        thousandths(&jobs.iter().map(task).collect::<Vec<_>>())
    }

    #[test]
    fn the_sum_is_exact_and_rounded_up() {
        assert_eq!(of(&[]), Some(0));
        assert_eq!(of(&[(5, 1), (9, 7)]), Some(978)); // 44/45
        assert_eq!(of(&[(3, 1), (3, 1), (3, 1)]), Some(1000));
        assert_eq!(of(&[(2, 1), (3, 1), (6, 1)]), Some(1000));
        assert_eq!(of(&[(2, 1)]), Some(500));
        assert_eq!(of(&[(60_000, 1)]), Some(1));
        assert_eq!(of(&[(2000, 1999), (4000, 3)]), Some(1001));
        assert_eq!(of(&[(9, 1), (0, 1)]), None);
        assert_eq!(of(&[(1, 65_535); 64]), Some(64_000 * 65_535));
    }

    /// The number that times `number` leaves 1 by a prime.
    fn inverse(number: u64, prime: u64) -> u64 {
        (1..prime).find(|x| number * x % prime == 1).unwrap()
    }

    #[test]
    fn a_difference_far_below_a_machine_word_is_seen() {
        let primes = [59_999, 59_981, 59_971, 59_957, 59_951, 59_929, 59_921];
        // budgets whose sum of budget / period is a whole number and 1 / P, where P is the product of the periods
        let budget = |prime: u64| {
            let others = primes.iter().filter(|&&other| other != prime);
            inverse(
                others.fold(1, |product, other| product * other % prime),
                prime,
            )
        };
        let more: Vec<(u16, u16)> = primes.map(|p| (p as u16, budget(p) as u16)).to_vec();
        let less: Vec<(u16, u16)> = more.iter().map(|&(p, e)| (p, p - e)).collect();
        let sum: f64 = more.iter().map(|&(p, e)| f64::from(e) / f64::from(p)).sum();
        let whole = sum.round() as u64;
        assert!((sum - sum.round()).abs() < 1e-9);
        assert_eq!(of(&more), Some(1000 * whole + 1));
        assert_eq!(of(&less), Some(1000 * (7 - whole)));
        assert_eq!(of(&[more, less].concat()), Some(7000));
    }
}
