//! The questions that are asked about an image, and which points are asked for.

use independent::make::Description;
use independent::random::Random;

use crate::kind::{Kind, Visit};

#[derive(Debug, Clone, Copy, PartialEq, Eq)]
pub enum Question {
    /// Is the image accepted?
    Read,
    /// The points of a pair of tasks.
    Points { writer: u64, reader: u64, n: u64 },
    /// The copy listing of a core, into a lent buffer of so many bytes.
    Listing { core: u64, room: usize },
    /// The ages of a chain.
    Ages { chain: u64 },
}

impl Question {
    pub const WORDS: [&'static str; 4] = ["read", "points", "listing", "ages"];
    /// The numbers that each question can give beyond those of an image alone.
    pub const NUMBERS: [&'static [usize]; 4] = [&[], &[12, 13], &[11, 12], &[12]];

    pub fn number(self) -> usize {
        match self {
            Question::Read => 0,
            Question::Points { .. } => 1,
            Question::Listing { .. } => 2,
            Question::Ages { .. } => 3,
        }
    }

    /// The buffer that is lent, of no bytes where none is. No byte of it is like one beside it.
    pub fn lent(self) -> Vec<u8> {
        match self {
            Question::Listing { room, .. } => (0..room).map(|byte| !(157 * byte) as u8).collect(),
            _ => Vec::new(),
        }
    }
}

/// Values of n within and beyond the limit.
const NS: [u64; 8] = [0, 1, 2, 999_999, 1_000_000, 1_000_001, 1 << 32, u64::MAX];

/// The points of every pair of tasks of a table, joined or not, and of tasks that it does not have.
pub fn every_pair(table: &Description, visit: &mut Visit) {
    let image = table.image();
    let count = table.tasks.len() as u64;
    let tasks: Vec<u64> = (0..=count).chain([31, 32, 1 << 32, u64::MAX]).collect();
    for &writer in &tasks {
        for &reader in &tasks {
            for n in NS {
                visit(Kind::Valid, &image, Question::Points { writer, reader, n });
            }
        }
    }
}

/// The points of some pair, often a joined one, for any n up to a little beyond the limit.
pub fn any_points(random: &mut Random, table: &Description) -> Question {
    let read: Vec<&(u64, Vec<u64>)> =
        table.labels.iter().filter(|label| !label.1.is_empty()).collect();
    let n = match random.below(3) {
        0 => random.choose(&NS),
        1 => random.below(100),
        _ => random.below(1_000_100),
    };
    if read.is_empty() || random.below(3) == 0 {
        let most = table.tasks.len() as u64 + 1;
        return Question::Points { writer: random.below(most), reader: random.below(most), n };
    }
    let label = random.choose(&read);
    Question::Points { writer: label.0, reader: random.choose(&label.1), n }
}
