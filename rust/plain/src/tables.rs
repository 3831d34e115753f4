//! The benchmark's tables.

use independent::make::Description;
use independent::random::Random;

/// The example of document 01.
pub fn example() -> Description {
    Description {
        cores: 2,
        tasks: vec![(0, 2), (1, 5)],
        labels: vec![(0, vec![1])],
        chains: vec![vec![0, 1]],
    }
}

/// On eight cores 32 tasks that take turns with the periods given, and 64 labels with one to four
/// readers.
fn on_eight_cores(periods: &[u64]) -> Description {
    let mut random = Random::new(1);
    let tasks = (0..32).map(|task| (task % 8, periods[task as usize % periods.len()])).collect();
    let label = |label: u64| {
        let mut others: Vec<u64> = (0..32).filter(|&task| task != label % 32).collect();
        let readers = 0..random.between(1, 4);
        let mut any = || others.swap_remove(random.below(others.len() as u64) as usize);
        (label % 32, readers.map(|_| any()).collect())
    };
    Description { cores: 8, tasks, labels: (0..64).map(label).collect(), chains: Vec::new() }
}

/// A control unit, a tick being a tenth of its shortest period.
pub fn control_unit() -> Description {
    on_eight_cores(&[1, 2, 5, 10, 20, 50, 100, 200, 1_000].map(|period| 10 * period))
}

/// H 1,000,000 of periods from 1,000 up.
pub fn sparse() -> Description {
    let divisors = (1_000..=1_000_000).filter(|period| 1_000_000 % period == 0);
    on_eight_cores(&divisors.collect::<Vec<u64>>())
}

/// On one core 31 tasks of period 1 and one that is released once in a round, and 64 labels, each
/// read by so many tasks after its writer.
fn at_every_tick(round: u64, readers: u64) -> Description {
    let read_by = |label| (1..=readers).map(|after| (label + after) % 32).collect();
    let mut periods = [1; 32];
    periods[31] = round;
    Description {
        labels: (0..64).map(|label| (label % 32, read_by(label))).collect(),
        ..Description::of_periods(&periods)
    }
}

/// All others read each label: 2,887 bytes for every tick.
pub fn dense(round: u64) -> Description {
    at_every_tick(round, 31)
}

/// Two readers of each label: few bits of each readers field.
pub fn two_readers() -> Description {
    at_every_tick(100, 2)
}

/// 31 readers of each label: almost all bits of each readers field.
pub fn all_others_read() -> Description {
    dense(100)
}

/// Fast tasks that are wanted rarely: a ring of labels.
pub fn ring() -> Description {
    Description {
        labels: (0..3).map(|task| (task, vec![(task + 1) % 3])).collect(),
        ..Description::of_periods(&[1, 999, 1_000])
    }
}

/// Two frames in a round, which a task of period 1 writes.
pub fn two_frames(round: u64) -> Description {
    Description { labels: vec![(0, vec![1])], ..Description::of_periods(&[1, round / 2, round]) }
}

/// The chain 3, 7, 3 of document 01.
pub fn of_three() -> Description {
    Description::of_chain(&[3, 7, 3])
}

/// A chain of 55,440 paths, the most that a chain can have, among 188,496 starts.
pub fn most_paths() -> Description {
    Description::of_chain(&[5, 7, 9, 11, 16, 17, 3, 2])
}

/// A chain of 999 paths among 999,999 starts.
pub fn rare_paths() -> Description {
    Description::of_chain(&[1, 999, 1_001])
}
