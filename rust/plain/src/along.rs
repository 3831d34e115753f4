//! Along the releases of the slowest task of a chain, through which every path goes: of each the last
//! start that it takes, backwards through the tasks before it, and the end of that start, through the
//! tasks after it.

use std::array;

/// A task's period, and how long after a release it hands on what it took: one period, but for the
/// first task of the chain and the last, for which it is nothing. It divides by a product and a shift.
#[derive(Clone, Copy)]
pub struct Task {
    pub period: u32,
    pub waits: u32,
    inverse: u32,
    shift: u32,
}

impl Task {
    pub const NONE: Task = Task { period: 0, waits: 0, inverse: 0, shift: 0 };

    pub fn new(period: u32, waits: u32) -> Task {
        let shift = 25 + period.next_power_of_two().trailing_zeros();
        let inverse = ((1 << shift) / u64::from(period) + 1) as u32;
        Task { period, waits, inverse, shift }
    }

    /// The last release at or before a tick that is below 2^25.
    #[inline(always)]
    pub fn last_to(self, tick: u32) -> u32 {
        ((u64::from(tick) * u64::from(self.inverse)) >> self.shift) as u32 * self.period
    }

    /// The first release at or after a tick.
    #[inline(always)]
    pub fn first_from(self, tick: u32) -> u32 {
        self.last_to(tick + self.period - 1)
    }
}

/// The slowest task of a chain, and those before and after it.
pub struct Along<'a> {
    pub before: &'a [Task],
    pub slowest: Task,
    pub after: &'a [Task],
}

/// So many releases are taken together: nothing of one is needed for another.
pub const TOGETHER: u32 = 4;

impl Along<'_> {
    /// Some releases that follow one another. No tick exceeds the round by more than two periods of
    /// each task, and no period the round, which is at most 1,000,000.
    #[inline(always)]
    pub fn from<const N: usize>(&self, release: u32) -> ([u32; N], [u32; N]) {
        let period = self.slowest.period;
        let mut starts: [u32; N] = array::from_fn(|number| release + period * number as u32);
        let mut ends = starts.map(|release| release + self.slowest.waits);
        for &task in self.before.iter().rev() {
            starts = starts.map(|tick| task.last_to(tick) - task.waits);
        }
        for &task in self.after {
            ends = ends.map(|tick| task.first_from(tick) + task.waits);
        }
        (starts, ends)
    }
}
