//! The ages of a chain: document 01, "Age of a chain"; document 02, C-11. By one way along the
//! releases of the chain's slowest task, by another through every start.

use crate::along::{Along, Task, TOGETHER};
use crate::parts::hyperperiod;
use crate::reading::{read, Refusal, NOTHING};

#[derive(Debug, Clone, Copy, PartialEq, Eq)]
pub struct Ages {
    pub paths: u32,
    pub longest: u32,
    pub worst: u32,
    pub best: u32,
    pub jitter: u32,
}

/// A start with its end, and the paths before it.
struct Paths {
    /// The first period and the last: an age is counted from a first period before the start to the
    /// valve, a last period after the end.
    both_periods: u32,
    start: u32,
    end: u32,
    ages: Ages,
}

impl Paths {
    fn new(both_periods: u32, start: u32, end: u32) -> Paths {
        let ages = Ages { paths: 0, longest: 0, worst: 0, best: u32::MAX, jitter: 0 };
        Paths { both_periods, start, end, ages }
    }

    /// Goes on to a later start, or to the same one, with the end that belongs to it if it is later.
    /// The start before it is that of a basic path where it ends earlier.
    #[inline(always)]
    fn take(&mut self, start: u32, end: u32) {
        let later = start != self.start;
        let basic = later && end != self.end;
        let age = self.both_periods + end - self.start;
        let ages = &mut self.ages;
        ages.paths += u32::from(basic);
        ages.longest = ages.longest.max(if basic { self.end - self.start } else { 0 });
        ages.worst = ages.worst.max(if basic { age } else { 0 });
        ages.best = ages.best.min(if basic { age } else { u32::MAX });
        self.end = if later { end } else { self.end };
        self.start = start;
    }

    fn ages(self) -> Ages {
        Ages { jitter: self.ages.worst - self.ages.best, ..self.ages }
    }
}

/// The chain's periods and how many they are, and the least common multiple of them.
type Chain = ([u32; 8], usize, u32);

fn read_chain(image: &[u8], chain: u64) -> Result<Chain, Refusal> {
    let mut table = NOTHING;
    read(image, &mut table)?;
    if chain >= table.chains as u64 {
        return Err((12, 0));
    }
    let tasks = table.length[chain as usize] as usize;
    let row = &table.rows[chain as usize];
    let periods = row.map(|task| table.period[task as usize % 32]);
    let round = hyperperiod(&periods[..tasks]).ok_or((10, 0))?;
    Ok((periods, tasks, round))
}

/// Every path goes through a release of the slowest task. The first is the one that takes the start
/// 0; a round later everything is as it was.
pub fn ages(image: &[u8], chain: u64) -> Result<Ages, Refusal> {
    let (periods, tasks, round) = read_chain(image, chain)?;
    let mut all = [Task::NONE; 8];
    let mut slowest = 0;
    for (number, &period) in periods[..tasks].iter().enumerate() {
        let middle = 0 < number && number < tasks - 1;
        all[number] = Task::new(period, if middle { period } else { 0 });
        slowest = if period > periods[slowest] { number } else { slowest };
    }
    let (before, rest) = all[..tasks].split_at(slowest);
    let along = Along { before, slowest: rest[0], after: &rest[1..] };
    let begun = |tick, task: &Task| task.first_from(tick) + task.waits;
    let mut release = rest[0].first_from(before.iter().skip(1).fold(0, begun));
    let ([start], [end]) = along.from(release);
    let mut paths = Paths::new(periods[0] + periods[tasks - 1], start, end);
    let period = periods[slowest];
    let mut left = round / period;
    while left >= TOGETHER {
        let (starts, ends) = along.from::<{ TOGETHER as usize }>(release + period);
        starts.into_iter().zip(ends).for_each(|(start, end)| paths.take(start, end));
        release += TOGETHER * period;
        left -= TOGETHER;
    }
    for _ in 0..left {
        release += period;
        let ([start], [end]) = along.from(release);
        paths.take(start, end);
    }
    Ok(paths.ages())
}

/// Through every start, each task's releases walked beside.
pub fn ages_by_every_start(image: &[u8], chain: u64) -> Result<Ages, Refusal> {
    let (periods, tasks, round) = read_chain(image, chain)?;
    let (first, later, last) = (periods[0], &periods[1..tasks], periods[tasks - 1]);
    let mut releases = [0; 7];
    let mut end_of = |start: u32| {
        let mut tick = start;
        for (release, &period) in releases.iter_mut().zip(later) {
            while *release < tick {
                *release += period;
            }
            tick = *release + period;
        }
        tick - last
    };
    let mut paths = Paths::new(first + last, 0, end_of(0));
    for start in (first..=round).step_by(first as usize) {
        paths.take(start, end_of(start));
    }
    Ok(paths.ages())
}
