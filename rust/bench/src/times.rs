//! The times of the two sides, round by round, and what is told of them: medians, and medians of ratios.

use std::time::Duration;

/// The times of the two sides in one round, ours first.
pub type Pair = (Duration, Duration);

/// Lets the two sides go in turn, ours first or not.
pub fn in_turn(
    ours_first: bool,
    ours: impl FnOnce() -> Duration,
    fast: impl FnOnce() -> Duration,
) -> Pair {
    if ours_first {
        let time = ours();
        (time, fast())
    } else {
        let time = fast();
        (ours(), time)
    }
}

/// Nanoseconds a call, of both sides, round by round.
#[derive(Default)]
pub struct Times {
    pub ours: Vec<f64>,
    pub fast: Vec<f64>,
}

impl Times {
    /// One round more, of so many calls.
    pub fn add(&mut self, pair: Pair, calls: usize) {
        self.ours.push(a_call(pair.0, calls));
        self.fast.push(a_call(pair.1, calls));
    }

    /// The cells of a table: the medians with so many decimals, and the ratio.
    pub fn cells(&self, decimals: usize) -> String {
        let (ours, fast) = (median(&self.ours), median(&self.fast));
        let ratio = ratio(&self.ours, &self.fast);
        format!("{ours:.decimals$} | {fast:.decimals$} | {ratio:.2}")
    }
}

/// Nanoseconds a call.
pub fn a_call(time: Duration, calls: usize) -> f64 {
    time.as_nanos() as f64 / calls as f64
}

/// The value in the middle.
pub fn median(values: &[f64]) -> f64 {
    let mut values = values.to_vec();
    values.sort_by(f64::total_cmp);
    values[values.len() / 2]
}

/// The median of the ratios, round by round.
pub fn ratio(above: &[f64], below: &[f64]) -> f64 {
    median(&above.iter().zip(below).map(|(above, below)| above / below).collect::<Vec<f64>>())
}
