//! Several ways to do one thing, timed in turn: samples of one alternate with samples of the others, so that all meet the same machine.
use std::time::Instant;

const SAMPLES: usize = 101;

fn sample(calls: usize, work: &mut dyn FnMut()) -> f64 {
    let began = Instant::now();
    for _ in 0..calls {
        work();
    }
    began.elapsed().as_nanos() as f64 / calls as f64
}

/// So many calls that a sample takes about a millisecond, and at least one.
fn calls(work: &mut dyn FnMut()) -> usize {
    let once = sample(1, work).min(sample(3, work)).max(1.0);
    ((1_000_000.0 / once) as usize).clamp(1, 1_000_000)
}

/// Nanoseconds a call: the best sample and the median.
#[derive(Clone, Copy)]
pub struct Time {
    pub best: f64,
    pub median: f64,
}

impl Time {
    /// What is left without a part that was timed in the same run: best less best and median less median, each a figure of its own. Where the part's noise is larger than what is left, nothing is.
    pub fn less(self, part: Time) -> Time {
        Time { best: (self.best - part.best).max(0.0), median: (self.median - part.median).max(0.0) }
    }
}

/// What a call took in each sample, round by round.
pub fn rounds<const N: usize>(mut works: [&mut dyn FnMut(); N]) -> Vec<[f64; N]> {
    let counts: Vec<usize> = works.iter_mut().map(|work| calls(work)).collect();
    let mut round = || std::array::from_fn(|i| sample(counts[i], works[i]));
    (0..SAMPLES).map(|_| round()).collect()
}

fn sorted(of: impl Iterator<Item = f64>) -> Vec<f64> {
    let mut of: Vec<f64> = of.collect();
    of.sort_by(f64::total_cmp);
    of
}

/// Each work by itself.
pub fn summaries<const N: usize>(rounds: &[[f64; N]]) -> [Time; N] {
    std::array::from_fn(|i| {
        let of = sorted(rounds.iter().map(|round| round[i]));
        Time { best: of[0], median: of[SAMPLES / 2] }
    })
}

/// Works of the same round against each other: the median, and between what the middle half of the rounds lies. A machine that is slow for a while is so for both.
pub fn middle(of: impl Iterator<Item = f64>) -> String {
    let of = sorted(of);
    format!("{:.2} ({:.2} to {:.2})", of[SAMPLES / 2], of[SAMPLES / 4], of[3 * SAMPLES / 4])
}

pub fn times<const N: usize>(works: [&mut dyn FnMut(); N]) -> [Time; N] {
    summaries(&rounds(works))
}
