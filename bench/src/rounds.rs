//! Paired rounds: in each, all contestants are timed over passes of their calls, one right after the
//! other, in rotating order.

use std::time::Duration;

/// What is timed: passes of the same calls, so many calls in each.
pub struct Contestant<'a> {
    pub calls: usize,
    /// How long so many passes take.
    pub time: Box<dyn Fn(usize) -> Duration + 'a>,
}

impl Contestant<'_> {
    /// How many passes make a timing long enough.
    fn passes(&self, least: Duration) -> usize {
        let mut passes = 1;
        while (self.time)(passes) < least {
            passes *= 2;
        }
        passes
    }

    /// Nanoseconds for one call.
    fn per_call(&self, passes: usize) -> f64 {
        (self.time)(passes).as_secs_f64() * 1e9 / (passes * self.calls) as f64
    }
}

/// Each contestant's nanoseconds for one call, round by round. `least` is what one timing takes at least.
/// Each contestant has as many passes as that takes it: were the slower one's timings longer, other work
/// on the machine would fall on it more often.
pub fn measure(contestants: &[&Contestant], rounds: usize, least: Duration) -> Vec<Vec<f64>> {
    let passes: Vec<usize> = contestants.iter().map(|who| who.passes(least)).collect();
    let mut measured = vec![Vec::new(); contestants.len()];
    for round in 0..rounds {
        for turn in 0..contestants.len() {
            let who = (round + turn) % contestants.len();
            measured[who].push(contestants[who].per_call(passes[who]));
        }
    }
    measured
}

/// The median of some values, and the tenth and the ninetieth of a hundred.
pub struct Spread {
    pub median: f64,
    pub low: f64,
    pub high: f64,
}

impl Spread {
    pub fn of(values: impl Iterator<Item = f64>) -> Spread {
        let mut sorted: Vec<f64> = values.collect();
        sorted.sort_by(f64::total_cmp);
        let at = |share: f64| sorted[(share * (sorted.len() - 1) as f64).round() as usize];
        Spread { median: at(0.5), low: at(0.1), high: at(0.9) }
    }
}

#[cfg(test)]
mod tests {
    use super::*;
    use std::cell::RefCell;

    #[test]
    fn a_spread_has_values_of_the_list() {
        let spread = Spread::of((0..=100).rev().map(f64::from));
        assert_eq!([spread.low, spread.median, spread.high], [10.0, 50.0, 90.0]);
        assert_eq!(Spread::of([3.0].into_iter()).high, 3.0);
    }

    #[test]
    fn each_goes_first_in_turn_and_is_timed_long_enough() {
        let order = RefCell::new(Vec::new());
        let each = [1, 2, 4].map(|who| Contestant {
            calls: who,
            time: Box::new({
                let order = &order;
                move |passes| {
                    order.borrow_mut().push(who);
                    Duration::from_micros((passes * who) as u64)
                }
            }),
        });
        let measured = measure(&each.each_ref(), 3, Duration::from_micros(4));
        assert_eq!(measured, [[1e3; 3]; 3]);
        let asked = order.borrow();
        assert_eq!(asked[asked.len() - 9..], [1, 2, 4, 2, 4, 1, 4, 1, 2]);
    }
}
