//! Batches of calls, which programs make in turn, so that what disturbs the machine for a moment
//! disturbs all alike.

use crate::spread::{by_copy, spread, Spread};
use crate::words::SAMPLES;
use std::hint::black_box;
use std::time::Instant;

/// How long to measure.
#[derive(Clone, Copy)]
pub struct Effort {
    /// What disturbs the machine for seconds is met by everything that is timed, since a run
    /// passes over all of it several times.
    pub passes: usize,
    /// For each thing that is timed and each copy of the library in each pass.
    pub batches: usize,
    /// A batch goes through the samples until it has taken about this long.
    pub batch_ns: f64,
}

pub const FULL: Effort = Effort {
    passes: 24,
    batches: 6,
    batch_ns: 300_000.0,
};
/// Enough to see that everything runs, not for figures.
pub const QUICK: Effort = Effort {
    passes: 1,
    batches: 3,
    batch_ns: 1_000.0,
};

/// How often a batch goes through so many samples, where a call takes so many nanoseconds.
pub fn rounds(batch_ns: f64, samples: usize, a_call: f64) -> usize {
    (batch_ns / (a_call * samples as f64)).ceil() as usize
}

/// Nanoseconds a call.
pub fn batch<S>(samples: &[S], rounds: usize, mut call: impl FnMut(&S)) -> f64 {
    let start = Instant::now();
    for _ in 0..rounds {
        for sample in samples {
            call(black_box(sample));
        }
    }
    start.elapsed().as_nanos() as f64 / (rounds * samples.len()) as f64
}

/// The same with samples that a call may change.
pub fn batch_mut<S>(samples: &mut [S], rounds: usize, mut call: impl FnMut(&mut S)) -> f64 {
    let start = Instant::now();
    for _ in 0..rounds {
        for sample in &mut *samples {
            call(black_box(sample));
        }
    }
    start.elapsed().as_nanos() as f64 / (rounds * samples.len()) as f64
}

/// The numbers below `count`, from `first` on and round to the one before it.
pub fn in_turn(first: usize, count: usize) -> impl Iterator<Item = usize> {
    (0..count).map(move |i| (first + i) % count)
}

/// N calls that are timed in turn on the same samples, and the turns so far.
pub struct Turns<const N: usize> {
    rounds: [usize; N],
    turns: Vec<Turn<N>>,
}

/// A batch of each call, all of one copy: nanoseconds a call.
struct Turn<const N: usize> {
    copy: usize,
    times: [f64; N],
}

/// `batch` takes the number of a call and how often to go through the samples, and gives nanoseconds
/// a call.
impl<const N: usize> Turns<N> {
    /// A short turn tells how long a call takes.
    pub fn new(batch_ns: f64, mut batch: impl FnMut(usize, usize) -> f64) -> Turns<N> {
        let short = turn(0, [2; N], &mut batch);
        let enough = |a_call: f64| rounds(batch_ns, SAMPLES, a_call);
        Turns {
            rounds: short.map(enough),
            turns: vec![],
        }
    }

    /// So many turns with one copy, after a round of each call to warm up.
    pub fn take(
        &mut self,
        copy: usize,
        batches: usize,
        mut batch: impl FnMut(usize, usize) -> f64,
    ) {
        for call in 0..N {
            batch(call, 1);
        }
        for first in 0..batches {
            let times = turn(first, self.rounds, &mut batch);
            self.turns.push(Turn { copy, times });
        }
    }

    /// A figure of each turn, over all copies.
    pub fn over_all(&self, figure: impl Fn([f64; N]) -> f64) -> Spread {
        spread(self.turns.iter().map(|turn| figure(turn.times)).collect())
    }

    /// Its median for each copy alone.
    pub fn by_copy<const C: usize>(&self, figure: impl Fn([f64; N]) -> f64) -> [f64; C] {
        let of_copy = |turn: &Turn<N>| (turn.copy, figure(turn.times));
        by_copy(&self.turns.iter().map(of_copy).collect::<Vec<_>>())
    }
}

/// The calls in their order, which begins by `first` and goes round.
fn turn<const N: usize>(
    first: usize,
    rounds: [usize; N],
    mut batch: impl FnMut(usize, usize) -> f64,
) -> [f64; N] {
    let mut times = [0.0; N];
    for call in in_turn(first, N) {
        times[call] = batch(call, rounds[call]);
    }
    times
}

#[cfg(test)]
mod tests {
    use super::*;

    #[test]
    fn a_turn_goes_round() {
        assert_eq!(in_turn(5, 3).collect::<Vec<_>>(), [2, 0, 1]);
    }

    #[test]
    fn a_batch_takes_each_sample_as_often() {
        let mut taken = vec![];
        batch(&[3, 5], 2, |&sample| taken.push(sample));
        assert_eq!(taken, [3, 5, 3, 5]);
        assert_eq!(rounds(300.0, 2, 40.0), 4);
        let mut samples = [3, 5];
        batch_mut(&mut samples, 2, |sample| *sample += 1);
        assert_eq!(samples, [5, 7]);
    }

    /// The first call takes 10 nanoseconds and the second 20, of the second copy 40.
    #[test]
    fn each_call_comes_first_in_turn() {
        let mut made = vec![];
        let mut turns: Turns<2> = Turns::new(20_000.0, |call, _| [10.0, 20.0][call]);
        for copy in 0..2 {
            turns.take(copy, 2, |call, rounds| {
                made.push((call, rounds));
                [10.0, [20.0, 40.0][copy]][call]
            });
        }
        let warm = [(0, 1), (1, 1)];
        let turn = [(0, 32), (1, 16), (1, 16), (0, 32)];
        assert_eq!(made, [&warm[..], &turn, &warm, &turn].concat());
        let ratio = |times: [f64; 2]| times[1] / times[0];
        assert_eq!(turns.by_copy(ratio), [2.0, 4.0]);
        assert_eq!(turns.over_all(|times| times[0]).median, 10.0);
    }
}
