//! The proved code and the independent program, asked about the same images. Seeded: the same
//! seed and the same count give the same images.

#![forbid(unsafe_code)]

pub mod chains;
pub mod compare;
pub mod damage;
pub mod examples;
pub mod faulty;
pub mod faulty_ages;
pub mod faulty_frames;
pub mod faulty_listings;
pub mod independent;
pub mod kind;
pub mod listed;
pub mod listings;
pub mod question;
pub mod report;
pub mod rounds;
pub mod run;
pub mod said;
pub mod share;
pub mod tally;
