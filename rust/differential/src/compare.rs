//! The comparison. In one run the proved code is held to the independent program, and so are
//! programs that are the proved code but for one fault each: the images that speak for the proved
//! code have to speak against every one of these.

use crate::chains::chains;
use crate::faulty::{faulty, Program};
use crate::independent::Independent;
use crate::kind::Kind;
use crate::listings::{cores, rooms};
use crate::question::Question;
use crate::run::run;
use crate::said::by_proved_code;
use crate::share::Share;
use crate::tally::Tally;

pub struct Comparison {
    /// Of the proved code.
    pub tally: Tally,
    /// How many faulty programs were found out, and those that were not.
    pub found_out: usize,
    pub not_found_out: Vec<Program>,
}

impl Comparison {
    pub fn passed(&self) -> bool {
        self.tally.passed() && self.not_found_out.is_empty()
    }

    fn ask(&mut self, independent: &mut Independent, kind: Kind, image: &[u8], question: Question) {
        let proved = by_proved_code(image, question);
        let expected = independent.says(image, question);
        let count = self.not_found_out.len();
        self.not_found_out.retain_mut(|program| {
            let said = (program.says)(image, question, &proved);
            program.tally.take(kind, image, question, said, expected.clone());
            program.tally.differing == 0
        });
        self.found_out += count - self.not_found_out.len();
        self.tally.take(kind, image, question, proved, expected);
    }
}

/// A run of at least so many images. Each is also asked for listings and ages.
pub fn compare(seed: u64, least: u64) -> Comparison {
    let mut comparison =
        Comparison { tally: Tally::default(), found_out: 0, not_found_out: faulty() };
    let mut independent = Independent::new();
    let mut listings = Share::new(1_000, 100);
    let mut ages = Share::new(2_000, 200);
    run(seed, least, &mut |kind, image, question| {
        comparison.ask(&mut independent, kind, image, question);
        if question == Question::Read {
            for core in cores(&mut listings, independent.table(image)) {
                for room in rooms(core, independent.length(image, core)) {
                    let question = Question::Listing { core, room };
                    comparison.ask(&mut independent, kind, image, question);
                }
            }
            for chain in chains(&mut ages, independent.table(image)) {
                comparison.ask(&mut independent, kind, image, Question::Ages { chain });
            }
        }
    });
    comparison
}
