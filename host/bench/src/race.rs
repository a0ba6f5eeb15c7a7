use std::hint::black_box;
use std::time::{Duration, Instant};

use crate::clock;

/// A batch lasts about so long, unless one operation lasts longer: short enough to fall between
/// two turns of other programs.
const BATCH_NS: f64 = 100_000.0;

/// After so long no further round begins, unless another time is given.
const LONG: Duration = Duration::from_secs(2);

/// Operations that are timed in turn, so that all of them meet the same load of the machine.
pub struct Race<'a> {
    lanes: Vec<Box<dyn FnMut() + 'a>>,
    rounds: usize,
    longest: Duration,
}

impl<'a> Race<'a> {
    /// Starts a measurement of so many rounds.
    pub fn new(rounds: usize) -> Self {
        Self {
            lanes: Vec::new(),
            rounds,
            longest: LONG,
        }
    }

    /// Begins no further round after so long.
    pub fn within(mut self, longest: Duration) -> Self {
        self.longest = longest;
        self
    }

    /// Adds an operation.
    pub fn lane<T>(mut self, mut operation: impl FnMut() -> T + 'a) -> Self {
        self.lanes.push(Box::new(move || {
            black_box(operation());
        }));
        self
    }

    /// Gives the nanoseconds of each operation in its best round.
    pub fn run(self) -> Vec<f64> {
        let mut best = vec![f64::INFINITY; self.lanes.len()];
        for round in self.run_rounds() {
            for (best, time) in best.iter_mut().zip(round) {
                *best = best.min(time);
            }
        }
        best
    }

    /// Gives the nanoseconds of each operation in every round.
    pub fn run_rounds(mut self) -> Vec<Vec<f64>> {
        let batches: Vec<usize> = self.lanes.iter_mut().map(batch).collect();
        let mut rounds = Vec::new();
        let start = Instant::now();
        while rounds.is_empty() || rounds.len() < self.rounds && start.elapsed() < self.longest {
            let lanes = self.lanes.iter_mut().zip(&batches);
            rounds.push(lanes.map(|(lane, times)| timed(lane, *times)).collect());
        }
        rounds
    }
}

/// How often an operation is run in a round.
fn batch(lane: &mut Box<dyn FnMut() + '_>) -> usize {
    if timed(lane, 1) > 100.0 * BATCH_NS {
        return 1;
    }
    let once = timed(lane, 3).max(1.0);
    (BATCH_NS / once).clamp(1.0, 1_000_000.0) as usize
}

/// The nanoseconds of one operation out of so many.
fn timed(lane: &mut Box<dyn FnMut() + '_>, times: usize) -> f64 {
    let start = clock::now();
    for _ in 0..times {
        lane();
    }
    (clock::now() - start).as_nanos() as f64 / times as f64
}
