//! A run: the largest listings and chains, every change and every pair of every example, a table of
//! every size, then random rounds until enough images were asked about.

use std::cell::Cell;

use independent::random::Random;

use crate::damage::every_change;
use crate::examples::{every_size, examples, shorter_chains};
use crate::examples::{longest_chains, longest_listing, widest_listings};
use crate::kind::{Kind, Visit};
use crate::question::{every_pair, Question};
use crate::rounds::round;

/// Visits at least so many images: 95,747 for any seed, and the random rounds.
pub fn run(seed: u64, least: u64, visit: &mut Visit) {
    let visited = Cell::new(0);
    let mut counted = |kind: Kind, image: &[u8], question: Question| {
        visited.set(visited.get() + u64::from(question == Question::Read));
        visit(kind, image, question);
    };
    let mut random = Random::new(seed);
    widest_listings(&mut counted);
    for example in examples(&mut random) {
        every_change(&example, &mut counted);
        every_pair(&example, &mut counted);
    }
    longest_listing(&mut counted);
    longest_chains(&mut counted);
    every_size(&mut random, &mut counted);
    shorter_chains(&mut random, &mut counted);
    while visited.get() < least {
        round(&mut random, &mut counted);
    }
}
