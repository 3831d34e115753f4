//! Document 01, "Table image": random valid tables up to the largest, for tests.
//! The periods of a table are divisors of one number, so its hyperperiod is too.

use crate::make::Description;
use crate::random::Random;

/// The size of a table to be made.
#[derive(Debug, Clone)]
pub struct Size {
    pub cores: u64,
    pub tasks: u64,
    pub labels: u64,
    /// At most so many; none where no label has a reader.
    pub chains: u64,
    /// At least 1; the hyperperiod exceeds neither this nor 1,000,000.
    pub hyperperiod: u64,
    /// Every label has a reader, all tasks take turns as writers, and the chains
    /// are as long as they may be.
    pub full: bool,
}

impl Size {
    /// The largest table; its image has 480 bytes.
    pub fn largest(hyperperiod: u64) -> Size {
        Size { cores: 8, tasks: 32, labels: 64, chains: 16, hyperperiod, full: true }
    }

    pub fn any(random: &mut Random, hyperperiod: u64) -> Size {
        Size {
            cores: random.between(1, 8),
            tasks: random.between(1, 32),
            labels: random.between(0, 64),
            chains: random.between(0, 16),
            hyperperiod,
            full: false,
        }
    }

    pub fn small(random: &mut Random, hyperperiod: u64) -> Size {
        Size {
            cores: random.between(1, 3),
            tasks: random.between(1, 5),
            labels: random.between(0, 5),
            chains: random.between(0, 3),
            hyperperiod,
            full: false,
        }
    }
}

/// Numbers with many divisors, or with few and large ones.
const RICH: [u64; 20] = [
    6, 10, 12, 30, 36, 60, 100, 210, 360, 1_000, 2_310, 5_040, 27_720, 30_030, 510_510, 524_288,
    531_441, 720_720, 999_999, 1_000_000,
];

/// A random valid table.
pub fn table(random: &mut Random, size: &Size) -> Description {
    let periods = divisors(base(random, size.hyperperiod.min(1_000_000)));
    let tasks =
        (0..size.tasks).map(|_| (random.below(size.cores), random.choose(&periods))).collect();
    let mut labels = Vec::new();
    for number in 0..size.labels {
        let writer = if size.full { number % size.tasks } else { random.below(size.tasks) };
        labels.push((writer, readers(random, size, writer)));
    }
    let mut chains = Vec::new();
    if labels.iter().any(|(_, readers)| !readers.is_empty()) {
        for _ in 0..size.chains {
            let length = if size.full { 8 } else { random.between(2, 8) };
            chains.push(chain(random, &labels, length));
        }
    }
    Description { cores: size.cores, tasks, labels, chains }
}

/// The table of the file examples/largest.image: 480 bytes, and small enough listings to be printed.
pub fn largest_example() -> Description {
    table(&mut Random::new(1), &Size::largest(360))
}

/// A text of more than 2,000,000 bytes: on eight cores, with every listing nearly as long as is printed,
/// 32 tasks, all but one of period 1, and 64 labels that all others read.
pub fn longest_text() -> Description {
    let others = |label| (0..32).filter(|&task| task != label % 32).collect();
    let mut tasks: Vec<(u64, u64)> = (0..32).map(|task| (task % 8, 1)).collect();
    tasks[31].1 = 174;
    let labels = (0..64).map(|label| (label % 32, others(label))).collect();
    let chains = vec![vec![0, 31, 1, 2, 3, 4, 5, 31]; 16];
    Description { cores: 8, tasks, labels, chains }
}

fn base(random: &mut Random, most: u64) -> u64 {
    let rich: Vec<u64> = RICH.into_iter().filter(|&number| number <= most).collect();
    if rich.is_empty() || random.below(3) == 0 {
        random.between(1, most)
    } else {
        random.choose(&rich)
    }
}

fn divisors(number: u64) -> Vec<u64> {
    (1..=number).filter(|divisor| number % divisor == 0).collect()
}

/// Readers of a label, from none up to all other tasks.
fn readers(random: &mut Random, size: &Size, writer: u64) -> Vec<u64> {
    let others: Vec<u64> = (0..size.tasks).filter(|&task| task != writer).collect();
    let one_in = random.choose(&[1, 2, 8, 32]);
    let mut readers: Vec<u64> =
        others.iter().copied().filter(|_| random.below(one_in) == 0).collect();
    if readers.is_empty() && !others.is_empty() && (size.full || random.below(2) == 0) {
        readers.push(random.choose(&others));
    }
    readers
}

/// Follows labels from a writer to a reader, up to a length or to a dead end.
fn chain(random: &mut Random, labels: &[(u64, Vec<u64>)], length: u64) -> Vec<u64> {
    let read: Vec<&(u64, Vec<u64>)> = labels.iter().filter(|label| !label.1.is_empty()).collect();
    let mut chain = vec![random.choose(&read).0];
    while (chain.len() as u64) < length {
        let last = chain[chain.len() - 1];
        let next: Vec<&(u64, Vec<u64>)> =
            read.iter().copied().filter(|label| label.0 == last).collect();
        if next.is_empty() {
            break;
        }
        let label = random.choose(&next);
        chain.push(random.choose(&label.1));
    }
    chain
}
