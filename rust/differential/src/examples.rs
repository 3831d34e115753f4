//! Valid tables that stand for the limits of document 01, "Table image", and its examples.

use independent::listing_length;
use independent::make::Description;
use independent::random::Random;
use independent::tables::{table, Size};

use crate::kind::{Kind, Visit};
use crate::listings::rooms;
use crate::question::Question;

/// The tables to which every single change is made.
pub fn examples(random: &mut Random) -> Vec<Description> {
    let mut tables = vec![
        // The image of "The printing program".
        Description {
            cores: 2,
            tasks: vec![(0, 2), (1, 5)],
            labels: vec![(0, vec![1])],
            chains: vec![vec![0, 1]],
        },
        // The smallest image, and the largest period.
        Description::of_periods(&[1]),
        Description::of_periods(&[1_000_000]),
        // 72 bits, nine bytes: no fill.
        Description::of_periods(&[1, 1]),
        Description::of_periods(&[999, 1001]),
        Description::of_chain(&[3, 7, 3]),
        Description::of_chain(&[5, 10, 20]),
        Description::of_chain(&[16, 13, 11, 9, 7, 5, 3, 2]),
        // 64 labels without a reader.
        Description { labels: vec![(0, vec![]); 64], ..Description::of_periods(&[7]) },
        // A task that stands in a chain more than once, and 16 chains.
        Description {
            chains: vec![vec![0, 1, 0, 1, 0, 1, 0, 1]; 16],
            labels: vec![(0, vec![1]), (1, vec![0])],
            ..Description::of_periods(&[1, 1_000_000])
        },
    ];
    // The largest image, 480 bytes.
    tables.push(table(random, &Size::largest(1_000)));
    tables.push(table(random, &Size::largest(1_000_000)));
    tables
}

/// The largest table with its chains shortened task by task, down to two tasks each.
pub fn shorter_chains(random: &mut Random, visit: &mut Visit) {
    let mut table = table(random, &Size::largest(1_000));
    for chain in 0..table.chains.len() {
        while table.chains[chain].len() > 2 {
            visit(Kind::Valid, &table.image(), Question::Read);
            table.chains[chain].pop();
        }
    }
}

/// A valid table for every number of tasks and of labels, with chains where a label has a reader.
pub fn every_size(random: &mut Random, visit: &mut Visit) {
    for tasks in 1..=32 {
        for labels in 0..=64 {
            for chains in 0..=16 {
                let cores = random.between(1, 8);
                let full = random.below(2) == 0 && tasks > 1;
                let size = Size { cores, tasks, labels, chains, hyperperiod: 360, full };
                visit(Kind::Valid, &table(random, &size).image(), Question::Read);
            }
        }
    }
}

/// On one core, tasks with the periods given and 64 labels, each from the task given to the readers.
fn of_labels(periods: &[u64], label: impl Fn(u64) -> (u64, Vec<u64>)) -> Description {
    Description { labels: (0..64).map(label).collect(), ..Description::of_periods(periods) }
}

/// A frame of 2,048 copies, which no frame exceeds; and a listing of 2^32 and 23,307 bits, for which
/// no room is lent: 23,307 bits would have it.
pub fn widest_listings(visit: &mut Visit) {
    let others = |task| (0..32).filter(|&other| other != task).collect();
    let all_others = of_labels(&[1; 32], |label| (label % 32, others(label % 32)));
    let image = all_others.image();
    for room in rooms(0, listing_length(&image, 0)) {
        visit(Kind::Valid, &image, Question::Listing { core: 0, room });
    }
    let mut periods = [1; 32];
    periods[31] = 180_159;
    let image = of_labels(&periods, |_| (0, (1..31).collect())).image();
    visit(Kind::Valid, &image, Question::Listing { core: 0, room: 2_914 });
}

/// 1,000,000 frames, which no listing exceeds: 7,000,006 bytes.
pub fn longest_listing(visit: &mut Visit) {
    let labels = vec![(0, vec![1])];
    let table = Description { labels, ..Description::of_periods(&[1, 1, 1_000_000]) };
    visit(Kind::Valid, &table.image(), Question::Listing { core: 0, room: 7_000_006 });
}

/// A chain of 55,440 paths, which no chain exceeds, and one of 999 paths among 999,999 starts.
pub fn longest_chains(visit: &mut Visit) {
    for periods in [&[5, 7, 9, 11, 16, 17, 3, 2][..], &[1, 999, 1_001]] {
        let image = Description::of_chain(periods).image();
        visit(Kind::Valid, &image, Question::Ages { chain: 0 });
    }
}
