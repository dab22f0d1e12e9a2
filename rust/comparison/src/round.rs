//! One round: its random numbers, its place in the run, and what is said of a difference.

use std::fmt::Debug;

use inputs::Prng;

use crate::lent::{Lent, OTHERS};
use crate::tally::{Call, Tally};

/// Differences printed in full; the rest are only counted.
const PRINTED: u64 = 20;

pub struct Round<'a> {
    pub prng: Prng,
    tally: &'a mut Tally,
    seed: u64,
    number: u64,
    bare: bool,
    calls: u64,
}

impl<'a> Round<'a> {
    pub fn new(seed: u64, number: u64, bare: bool, tally: &'a mut Tally) -> Round<'a> {
        Round { prng: Prng::new(seed, number), tally, seed, number, bare, calls: 0 }
    }

    pub fn lend<const N: usize>(&mut self, content: &[u8]) -> Lent<N> {
        Lent::new(content, self.bare, &mut self.prng)
    }

    /// Begins the comparison of a call that its sides have made; `asked` names its arguments.
    pub fn compare(&mut self, call: Call, asked: String) -> Case<'_, 'a> {
        self.calls += 1;
        Case { round: self, call, asked }
    }
}

/// A call that its sides have made.
pub struct Case<'r, 'a> {
    round: &'r mut Round<'a>,
    call: Call,
    asked: String,
}

impl Case<'_, '_> {
    /// Counts the proved library's number, which [`Case::same`] compares.
    pub fn answered(&mut self, number: u64) {
        if !self.round.tally.count(self.call, number) {
            self.differs(&format!("the number {number} is none that this call may give"));
        }
    }

    /// Counts the number, and once more as the call's own where the card was sound before it.
    pub fn answered_on(&mut self, card_is_sound: bool, number: u64) {
        self.answered(number);
        if card_is_sound {
            self.round.tally.count_own(self.call, number);
        }
    }

    /// Counts the call as one that was done with an idle save.
    pub fn idle(&mut self) {
        self.round.tally.count_idle(self.call);
    }

    /// Compares the proved library's answer with the others', in the order of [`OTHERS`].
    pub fn same<T, const N: usize>(&mut self, what: &str, proved: T, others: [T; N])
    where
        T: PartialEq + Debug,
    {
        for (side, other) in OTHERS.iter().zip(others) {
            if proved != other {
                self.differs(&format!("{what}: proved {proved:?}, {side} {other:?}"));
            }
        }
    }

    /// Compares a buffer that was lent, and its guards.
    pub fn buffer<const N: usize>(&mut self, what: &str, buffer: &mut Lent<N>, may_change: bool) {
        if let Some(fault) = buffer.fault(may_change) {
            self.differs(&format!("{what}: {fault}"));
        }
        buffer.settle();
    }

    /// Compares the typed call's answer with what it must make of the raw one's.
    pub fn typed<T: PartialEq + Debug>(&mut self, typed: T, raw: T) {
        self.round.tally.count_typed();
        if typed != raw {
            self.differs(&format!("typed {typed:?}, raw {raw:?}"));
        }
    }

    /// Whether this call is also to be made through the typed ones, which cost as much again.
    pub fn wants_typed(&mut self) -> bool {
        self.round.prng.one_in(4)
    }

    fn differs(&mut self, what: &str) {
        let Round { seed, number, calls, .. } = *self.round;
        self.round.tally.count_difference();
        if self.round.tally.differences() <= PRINTED {
            let call = self.call.name();
            println!(
                "DIFFERENCE --seed {seed} --only {number}, call {calls}: {call} {}",
                self.asked
            );
            println!("  {what}");
        }
    }
}
