//! A row: one call with given inputs, made by each side.

use std::cell::RefCell;
use std::hint::black_box;
use std::rc::Rc;
use std::time::{Duration, Instant};

use inputs::answers::Answer;

use crate::rounds::Contestant;

/// How what a call writes to is made fresh again.
#[derive(Clone, Copy, PartialEq)]
pub enum Restored {
    /// Before each timing: a call leaves nothing that the next one could be slower or faster for.
    EachTiming,
    /// By the row's calls themselves, before each: for calls too short to be timed one by one.
    InTiming,
    /// Before each call, which is timed alone.
    EachCall,
}

/// A row, ready to be timed: its sides agree.
pub struct Row<'a> {
    pub call: &'static str,
    /// How long the image is, where that differs.
    pub kib: Option<usize>,
    pub on: String,
    pub restored: Restored,
    pub ours: Contestant<'a>,
    /// The simple side and, where there is one, the best.
    pub theirs: Vec<Contestant<'a>>,
}

/// What all sides are given.
pub struct Job<I, S> {
    pub call: &'static str,
    pub kib: Option<usize>,
    pub on: String,
    /// One pass makes the call with each of these in turn.
    pub inputs: Vec<I>,
    /// The number that the last of them is answered; those before it are done.
    pub answer: u32,
    /// What the call writes to, as it is before.
    pub fresh: S,
    pub restored: Restored,
    /// Makes it fresh again before a call that is timed alone: all of it, or what the calls may see.
    pub restore: fn(&mut S, &S),
}

impl<I, S> Job<I, S>
where
    S: Clone + PartialEq,
{
    /// Makes each call once on all sides: answers and bytes must be the same.
    pub fn row<'a, T: Answer, const N: usize>(
        self,
        ours: impl Fn(&mut S, &I) -> T::Raw + 'a,
        theirs: [impl Fn(&mut S, &I) -> T + 'a; N],
    ) -> Row<'a>
    where
        I: 'a,
        S: 'a,
    {
        let left = self.agree(&ours, &theirs);
        let (call, kib, on, restored) = (self.call, self.kib, self.on.clone(), self.restored);
        let state = RefCell::new(self.fresh.clone());
        let bench = Rc::new(Bench { job: self, left, state });
        Row {
            call,
            kib,
            on,
            restored,
            ours: contestant(&bench, ours),
            theirs: theirs.map(|call| contestant(&bench, call)).into(),
        }
    }

    /// Gives what the last call leaves.
    fn agree<T: Answer>(
        &self,
        ours: &impl Fn(&mut S, &I) -> T::Raw,
        theirs: &[impl Fn(&mut S, &I) -> T],
    ) -> S {
        let mut left = self.fresh.clone();
        for (at, input) in self.inputs.iter().enumerate() {
            let (call, on) = (self.call, &self.on);
            left.clone_from(&self.fresh);
            let ours = ours(&mut left, input);
            let answer = if at + 1 == self.inputs.len() { self.answer } else { 0 };
            for theirs in theirs {
                let mut other = self.fresh.clone();
                let theirs = theirs(&mut other, input);
                assert_eq!(theirs.number(), answer, "{call}, {on}: not the answer to input {at}");
                assert!(ours == theirs.raw(), "{call}, {on}: the answers to input {at} differ");
                assert!(left == other, "{call}, {on}: the bytes left by input {at} differ");
            }
        }
        left
    }
}

/// The memory that the sides share, and what must be in it after a timing.
struct Bench<I, S> {
    job: Job<I, S>,
    left: S,
    state: RefCell<S>,
}

fn contestant<'a, I: 'a, S: Clone + PartialEq + 'a, R>(
    bench: &Rc<Bench<I, S>>,
    call: impl Fn(&mut S, &I) -> R + 'a,
) -> Contestant<'a> {
    let bench = Rc::clone(bench);
    let calls = bench.job.inputs.len();
    Contestant { calls, time: Box::new(move |passes| bench.time(&call, passes)) }
}

impl<I, S: Clone + PartialEq> Bench<I, S> {
    fn time<R>(&self, call: &impl Fn(&mut S, &I) -> R, passes: usize) -> Duration {
        let state = &mut *self.state.borrow_mut();
        state.clone_from(&self.job.fresh);
        let time = match self.job.restored {
            Restored::EachCall => self.time_apart(call, passes, state),
            _ => self.time_together(call, passes, state),
        };
        // All sides were seen to leave this; a later call that did not would be another call.
        assert!(*state == self.left, "{}: the calls timed left something else", self.job.call);
        time
    }

    fn time_together<R>(
        &self,
        call: &impl Fn(&mut S, &I) -> R,
        passes: usize,
        state: &mut S,
    ) -> Duration {
        let start = Instant::now();
        for _ in 0..passes {
            for input in &self.job.inputs {
                black_box(call(black_box(&mut *state), black_box(input)));
            }
        }
        start.elapsed()
    }

    fn time_apart<R>(
        &self,
        call: &impl Fn(&mut S, &I) -> R,
        passes: usize,
        state: &mut S,
    ) -> Duration {
        let mut total = Duration::ZERO;
        for input in (0..passes).flat_map(|_| &self.job.inputs) {
            (self.job.restore)(state, &self.job.fresh);
            let start = Instant::now();
            black_box(call(black_box(&mut *state), black_box(input)));
            total += start.elapsed();
        }
        total
    }
}
