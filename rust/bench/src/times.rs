//! Two sides timed in turns, and the medians of what was measured.

use std::{fmt, num::ParseFloatError, str::FromStr, time::Instant};

const ROUNDS: usize = 15;
const TURNS: usize = 3;

/// Nanoseconds that `run` takes.
pub fn timed(run: impl FnOnce()) -> u64 {
    let start = Instant::now();
    run();
    start.elapsed().as_nanos() as u64
}

/// Nanoseconds that a call at each of these places takes, one after another.
pub fn each<T: Copy>(at: &[T], call: impl FnMut(T)) -> u64 {
    timed(|| at.iter().copied().for_each(call))
}

/// Nanoseconds of a call on either side, and the ratio of the second to the first.
#[derive(Clone, Copy)]
pub struct Times {
    pub first: f64,
    pub second: f64,
    pub ratio: f64,
}

impl Times {
    /// Each side returns the nanoseconds of `calls` calls. A round takes the best of a few turns of each side, in turns, so that
    /// both meet the same machine; these are the medians of the rounds.
    pub fn of(
        calls: usize,
        mut first: impl FnMut() -> u64,
        mut second: impl FnMut() -> u64,
    ) -> Self {
        let mut round = || {
            let mut best = [u64::MAX; 2];
            for _ in 0..TURNS {
                best[0] = best[0].min(first());
                best[1] = best[1].min(second());
            }
            let [first, second] = best.map(|ns| ns as f64 / calls as f64);
            Self { first, second, ratio: second / first }
        };
        let rounds: Vec<Self> = (0..ROUNDS).map(|_| round()).collect();
        Self::medians(&rounds)
    }

    /// The median of each number.
    pub fn medians(of: &[Self]) -> Self {
        let by = |number: fn(&Self) -> f64| median(of.iter().map(number).collect());
        Self {
            first: by(|times| times.first),
            second: by(|times| times.second),
            ratio: by(|times| times.ratio),
        }
    }
}

pub fn median(mut of: Vec<f64>) -> f64 {
    of.sort_by(f64::total_cmp);
    (of[(of.len() - 1) / 2] + of[of.len() / 2]) / 2.0
}

/// The line that a row's process prints.
impl fmt::Display for Times {
    fn fmt(&self, out: &mut fmt::Formatter<'_>) -> fmt::Result {
        write!(out, "{} {} {}", self.first, self.second, self.ratio)
    }
}

impl FromStr for Times {
    type Err = ParseFloatError;

    fn from_str(line: &str) -> Result<Self, ParseFloatError> {
        let mut numbers = line.split_whitespace();
        let mut next = || numbers.next().unwrap_or_default().parse();
        Ok(Self { first: next()?, second: next()?, ratio: next()? })
    }
}
