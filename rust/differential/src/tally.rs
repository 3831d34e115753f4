//! What came out of a run: how many images of each kind, how often each number was said to each
//! question, and every difference.

use std::collections::BTreeSet;

use crate::kind::Kind;
use crate::question::Question;
use crate::said::Said;

/// A question to which the two say different things.
#[derive(Debug, Clone)]
pub struct Difference {
    pub kind: Kind,
    pub image: Vec<u8>,
    pub question: Question,
    pub asked: Said,
    pub expected: Said,
}

#[derive(Debug, Clone, Default)]
pub struct Tally {
    /// How many images of each kind were asked whether they are accepted.
    pub kinds: [u64; Kind::ALL.len()],
    /// How often each number was expected, by question; 0 is answered.
    pub numbers: [[u64; 14]; Question::WORDS.len()],
    /// The lengths of the accepted images.
    pub lengths: BTreeSet<usize>,
    /// How many cores were listed into a buffer with no room to spare.
    pub cores: u64,
    pub differing: u64,
    /// The first few.
    pub differences: Vec<Difference>,
}

const SHOWN: usize = 5;

/// The lengths that a valid image can have, in bytes. The head has 26 bits, each task 23, each label
/// 37; a chain has 14 to 44 and needs two tasks and a label. So the smallest images have 49 bits (one
/// task), 72 (two), 86 (one and a label), 95 (three), 109 (two and a label), 118 (four), and then 123
/// and more: none has 57 to 64, 73 to 80 or 97 to 104 bits, which would fill 8, 10 or 13 bytes. The
/// largest has 3,834 bits.
fn possible_lengths() -> BTreeSet<usize> {
    (7..=480).filter(|length| ![8, 10, 13].contains(length)).collect()
}

/// The largest number that an image alone can give.
const OF_IMAGES: usize = 10;

/// So many cores are listed at least, or one for every three images where there are fewer.
const CORES: u64 = 100_000;

impl Tally {
    pub fn images(&self) -> u64 {
        self.kinds.iter().sum()
    }

    /// Compares what is said to a question with what is expected.
    pub fn take(
        &mut self,
        kind: Kind,
        image: &[u8],
        question: Question,
        asked: Said,
        expected: Said,
    ) {
        self.numbers[question.number()][expected.number as usize] += 1;
        if question == Question::Read {
            self.kinds[kind as usize] += 1;
            if expected.number == 0 {
                self.lengths.insert(image.len());
            }
        }
        let listing = expected.listing(question);
        self.cores += u64::from(listing.is_some_and(|bytes| bytes.len() == expected.lent.len()));
        if asked != expected {
            self.differing += 1;
            if self.differences.len() < SHOWN {
                let image = image.to_vec();
                self.differences.push(Difference { kind, image, question, asked, expected });
            }
        }
    }

    /// What should have occurred and did not.
    pub fn missing(&self) -> Vec<String> {
        let mut missing = Vec::new();
        for kind in Kind::ALL {
            if self.kinds[kind as usize] == 0 {
                missing.push(kind.words().to_string());
            }
        }
        for (question, said) in self.numbers.iter().enumerate() {
            let possible = (0..=OF_IMAGES).chain(Question::NUMBERS[question].iter().copied());
            for number in possible.filter(|&number| said[number] == 0) {
                missing.push(format!("{}: number {number}", Question::WORDS[question]));
            }
        }
        let cores = CORES.min(self.images() / 3);
        if self.cores < cores {
            missing.push(format!("{cores} cores listed"));
        }
        let of_length = &possible_lengths() - &self.lengths;
        if !of_length.is_empty() {
            missing.push(accepted_with(&of_length));
        }
        missing
    }

    /// What cannot be and did occur.
    pub fn impossible(&self) -> Vec<String> {
        let of_length = &self.lengths - &possible_lengths();
        if of_length.is_empty() {
            Vec::new()
        } else {
            vec![accepted_with(&of_length)]
        }
    }

    /// All is well: everything occurred that can, nothing else, and nothing differs.
    pub fn passed(&self) -> bool {
        self.differing == 0 && self.missing().is_empty() && self.impossible().is_empty()
    }
}

/// Accepted images of each of these lengths, in words.
fn accepted_with(lengths: &BTreeSet<usize>) -> String {
    let bytes: Vec<String> = lengths.iter().map(usize::to_string).collect();
    format!("accepted images of {} bytes", bytes.join(", "))
}
