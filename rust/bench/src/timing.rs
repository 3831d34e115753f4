//! Times of the proved code and of another program that does the same, taken in turns in one run: the
//! least of many.

use std::time::{Duration, Instant};

/// Nanoseconds.
#[derive(Clone, Copy)]
pub struct Times {
    pub proved: f64,
    pub other: f64,
}

impl Times {
    pub fn ratio(&self) -> f64 {
        self.proved / self.other
    }
}

/// The shortest time that is measured at once, and how long measuring goes on.
const SHORTEST: Duration = Duration::from_micros(50);
const LONGEST: Duration = Duration::from_secs(2);
const LEAST_ROUNDS: u32 = 9;

fn nanoseconds(program: &mut impl FnMut(), times: u32) -> f64 {
    let begun = Instant::now();
    for _ in 0..times {
        program();
    }
    begun.elapsed().as_nanos() as f64 / f64::from(times)
}

/// How often a program has to run for its time to be measured.
fn enough(program: &mut impl FnMut()) -> u32 {
    let mut times = 1;
    while nanoseconds(program, times) * f64::from(times) < SHORTEST.as_nanos() as f64 {
        times *= 2;
    }
    times
}

pub fn times(mut proved: impl FnMut(), mut other: impl FnMut()) -> Times {
    let times = enough(&mut other);
    let mut least = Times { proved: f64::MAX, other: f64::MAX };
    let begun = Instant::now();
    let mut rounds = 0;
    while rounds < LEAST_ROUNDS || begun.elapsed() < LONGEST {
        least.proved = least.proved.min(nanoseconds(&mut proved, times));
        least.other = least.other.min(nanoseconds(&mut other, times));
        rounds += 1;
    }
    least
}
