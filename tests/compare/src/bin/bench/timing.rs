//! Rounds, and what is reported of them.

use reference::version::Version;
use std::time::Instant;

/// The contenders, by their places: our plain call, our call with a caller's table, the second
/// program, the SSE4.2 instruction.
pub const PLAIN: usize = 0;
pub const LENT: usize = 1;
pub const SECOND: usize = 2;
pub const HARDWARE: usize = 3;

/// Every segment is of version 1, the one that Prometheus reads.
pub const VERSION: Version = Version::One;
/// The same for the archive.
pub const NUMBER: u32 = 1;

/// Nanoseconds of one repeat, for each contender, round by round.
pub struct Rounds<const N: usize>([Vec<f64>; N]);

/// Times the calls, which make `repeats` each on the same state. The rounds of all calls alternate,
/// so that a slow moment of the machine falls on all alike.
pub fn time<S: ?Sized, const N: usize>(
    rounds: usize,
    repeats: usize,
    state: &mut S,
    calls: [&dyn Fn(&mut S); N],
) -> Rounds<N> {
    let mut times = [const { Vec::new() }; N];
    for _ in 0..rounds {
        for (call, times) in calls.iter().zip(&mut times) {
            let start = Instant::now();
            call(state);
            times.push(start.elapsed().as_nanos() as f64 / repeats as f64);
        }
    }
    Rounds(times)
}

/// Times the calls in the same way, each on a state of its own: what makes a call is not timed.
pub fn time_fresh<'a, const N: usize>(
    rounds: usize,
    repeats: usize,
    makers: [&dyn Fn() -> Box<dyn FnOnce() + 'a>; N],
) -> Rounds<N> {
    let mut times = [const { Vec::new() }; N];
    for _ in 0..rounds {
        for (make, times) in makers.iter().zip(&mut times) {
            let call = make();
            let start = Instant::now();
            call();
            times.push(start.elapsed().as_nanos() as f64 / repeats as f64);
        }
    }
    Rounds(times)
}

impl<const N: usize> Rounds<N> {
    /// No round yet.
    pub const fn none() -> Self {
        Rounds([const { Vec::new() }; N])
    }

    /// Adds later rounds.
    pub fn extend(&mut self, later: Self) {
        for (times, more) in self.0.iter_mut().zip(later.0) {
            times.extend(more);
        }
    }

    /// The median time of one contender.
    pub fn median(&self, one: usize) -> f64 {
        median(self.0[one].clone())
    }

    /// The time of one / the time of another: the median of the rounds' ratios. A machine that was
    /// slow in half of the rounds does not distort it, as it would the ratio of two medians.
    pub fn ratio(&self, one: usize, another: usize) -> f64 {
        let both = self.0[one].iter().zip(&self.0[another]);
        median(both.map(|(one, another)| one / another).collect())
    }
}

impl Rounds<4> {
    /// A row's part of the summary.
    pub fn summary(&self, row: usize) -> String {
        let plain = self.ratio(SECOND, PLAIN);
        let lent = self.ratio(SECOND, LENT);
        let hardware = self.ratio(HARDWARE, LENT);
        format!("{row}: {plain:.2} {lent:.2} {hardware:.2}")
    }
}

fn median(mut numbers: Vec<f64>) -> f64 {
    numbers.sort_by(f64::total_cmp);
    numbers[numbers.len() / 2]
}
