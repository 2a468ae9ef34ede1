//! One case, and the time it takes.

use crate::{Ours, Start, Theirs};
use std::hint::black_box;
use std::time::Instant;

/// Some calls on each side, from the same tables.
pub trait Pair {
    fn name(&self) -> &str;
    /// How many calls a run makes.
    fn calls(&self) -> usize;
    fn reset(&mut self);
    fn run_ours(&mut self);
    fn run_theirs(&mut self);
    /// Whether the last runs answered the same and left the same.
    fn same(&self) -> Result<(), String>;
}

pub struct Case<A, B> {
    name: String,
    calls: usize,
    start: Start,
    ours: Ours,
    theirs: Theirs,
    our_call: A,
    their_call: B,
    answers: [u64; 2],
}

/// A case of `calls` calls. Each closure makes the i-th and gives its answer.
pub fn case<'a, A, B>(
    name: impl Into<String>,
    start: Start,
    calls: usize,
    our_call: A,
    their_call: B,
) -> Case<A, B>
where
    A: FnMut(&mut Ours, usize) -> u64 + 'a,
    B: FnMut(&mut Theirs, usize) -> u64 + 'a,
{
    let (ours, theirs) = (Ours::new(&start), Theirs::new(&start));
    let answers = [0; 2];
    Case { name: name.into(), calls, start, ours, theirs, our_call, their_call, answers }
}

fn mixed(sum: u64, answer: u64) -> u64 {
    (sum.rotate_left(7) ^ answer).wrapping_mul(0x9e37_79b9_7f4a_7c15)
}

impl<A, B> Pair for Case<A, B>
where
    A: FnMut(&mut Ours, usize) -> u64,
    B: FnMut(&mut Theirs, usize) -> u64,
{
    fn name(&self) -> &str {
        &self.name
    }

    fn calls(&self) -> usize {
        self.calls
    }

    fn reset(&mut self) {
        self.ours.reset(&self.start);
        self.theirs = Theirs::new(&self.start);
    }

    fn run_ours(&mut self) {
        let mut sum = 0;
        for i in 0..self.calls {
            sum = mixed(sum, (self.our_call)(&mut self.ours, black_box(i)));
        }
        self.answers[0] = black_box(sum);
    }

    fn run_theirs(&mut self) {
        let mut sum = 0;
        for i in 0..self.calls {
            sum = mixed(sum, (self.their_call)(&mut self.theirs, black_box(i)));
        }
        self.answers[1] = black_box(sum);
    }

    fn same(&self) -> Result<(), String> {
        let what = if self.answers[0] != self.answers[1] {
            "the answers"
        } else if self.ours.handles != self.theirs.handles {
            "the handles"
        } else if self.ours.word() != self.theirs.word.value() {
            "the words"
        } else if self.ours.taken != self.theirs.taken {
            "the bytes that were handed over"
        } else if self.ours.ids() != self.theirs.store.ids.tables() {
            "the id tables"
        } else if self.ours.columns() != self.theirs.store.columns.tables() {
            "the column tables"
        } else {
            return Ok(());
        };
        Err(format!("{}: {what} differ", self.name))
    }
}

/// Runs each case once on each side and compares.
pub fn check(pairs: &mut [Box<dyn Pair>]) -> Result<(), String> {
    for pair in pairs {
        pair.reset();
        pair.run_ours();
        pair.run_theirs();
        pair.same()?;
    }
    Ok(())
}

/// Nanoseconds a call: the best round and the one in the middle.
#[derive(Clone, Copy, Debug)]
pub struct Time {
    pub best: f64,
    pub median: f64,
}

fn summed(mut rounds: Vec<f64>) -> Time {
    rounds.sort_by(f64::total_cmp);
    Time { best: rounds[0], median: rounds[rounds.len() / 2] }
}

/// Times both sides, a round of one after a round of the other.
pub fn times(pair: &mut dyn Pair, rounds: usize) -> [Time; 2] {
    let calls = pair.calls() as f64;
    let mut taken = [Vec::new(), Vec::new()];
    for _ in 0..rounds {
        pair.reset();
        let start = Instant::now();
        pair.run_ours();
        taken[0].push(start.elapsed().as_nanos() as f64 / calls);
        let start = Instant::now();
        pair.run_theirs();
        taken[1].push(start.elapsed().as_nanos() as f64 / calls);
    }
    taken.map(summed)
}
