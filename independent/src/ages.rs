//! Document 01, "Age of a chain", and document 02, C-11, by letting the chain run:
//! every start is a piece of data, named by its instant, that the tasks hand on from
//! job to job.
//!
//! A newer start overwrites an older one on its way, and starts never overtake one
//! another. So the end E(t) is the first instant at which the last task takes t or
//! a newer start, and t is the start of a basic path when the last task really
//! takes t itself. The next start that it takes ends at E(t + T1). What the job that
//! took it made of it reaches the valve when that job ends, at its next release.

use crate::hyperperiod::hyperperiod;

#[derive(Debug, Clone, Copy, PartialEq, Eq)]
pub struct Ages {
    pub paths: u64,
    pub longest: u64,
    pub worst: u64,
    pub best: u64,
    pub jitter: u64,
}

/// One task of the chain, with the starts that it holds.
struct Link {
    period: u64,
    next_release: u64,
    /// What the job now under way took at its release.
    taken: Option<u64>,
    /// What the last job that came to its end left for the next task.
    published: Option<u64>,
}

/// A start, the instant at which the last task first takes it, and the one at which
/// the valve moves by it.
#[derive(Debug, Clone, Copy, PartialEq, Eq)]
pub struct Arrival {
    pub start: u64,
    pub end: u64,
    pub valve: u64,
}

/// A chain that runs from tick 0 on.
pub struct Run {
    links: Vec<Link>,
}

impl Run {
    /// A chain of at least two tasks with the periods given.
    pub fn new(periods: &[u64]) -> Run {
        let link = |&period: &u64| Link { period, next_release: 0, taken: None, published: None };
        Run { links: periods.iter().map(link).collect() }
    }

    /// Runs on until the last task takes a start that it has not taken before.
    pub fn next_arrival(&mut self) -> Arrival {
        let last = self.links.len() - 1;
        loop {
            let before = self.links[last].taken;
            let now = self.next_instant();
            let after = self.links[last].taken;
            if let (true, Some(start)) = (before != after, after) {
                return Arrival { start, end: now, valve: self.links[last].next_release };
            }
        }
    }

    /// Runs through the next instant at which some task is released. What ends
    /// there is published first, then the jobs released there take their data.
    fn next_instant(&mut self) -> u64 {
        let mut now = self.links[0].next_release;
        for link in &self.links {
            now = now.min(link.next_release);
        }
        for (number, link) in self.links.iter_mut().enumerate() {
            if link.next_release == now {
                link.published = if number == 0 { Some(now) } else { link.taken };
            }
        }
        let mut offered = None;
        for (number, link) in self.links.iter_mut().enumerate() {
            if link.next_release == now {
                if number > 0 {
                    link.taken = offered;
                }
                link.next_release += link.period;
            }
            offered = link.published;
        }
        now
    }
}

/// E(t): the release at which the last task takes the start t, or a newer one.
pub fn end_of(periods: &[u64], start: u64) -> u64 {
    let mut run = Run::new(periods);
    let mut arrival = run.next_arrival();
    while arrival.start < start {
        arrival = run.next_arrival();
    }
    arrival.end
}

/// The answer for a chain of at least two tasks; none when the least common
/// multiple of its own periods exceeds 1,000,000.
pub fn ages_of(periods: &[u64]) -> Option<Ages> {
    let starts_until = hyperperiod(periods.iter().copied())?;
    let first_period = periods[0];
    let mut run = Run::new(periods);
    let mut path = run.next_arrival();
    let (mut paths, mut longest, mut worst, mut best) = (0, 0, 0, u64::MAX);
    while path.start < starts_until {
        let next = run.next_arrival();
        let age = first_period + next.valve - path.start;
        paths += 1;
        longest = longest.max(path.end - path.start);
        worst = worst.max(age);
        best = best.min(age);
        path = next;
    }
    Some(Ages { paths, longest, worst, best, jitter: worst - best })
}
