//! A second reading of document 01, written from its words and by other means
//! than its formulas: releases are walked, chains are simulated, bits are taken
//! and written one at a time. Each module stands for one passage.

#![forbid(unsafe_code)]

pub mod ages;
pub mod bits;
pub mod copies;
pub mod hyperperiod;
pub mod image;
pub mod listing;
pub mod make;
pub mod points;
pub mod print;
pub mod questions;
pub mod random;
pub mod refusal;
pub mod tables;

pub use ages::Ages;
pub use image::{read, Label, Table, Task};
pub use print::print;
pub use questions::{ages, ages_in, points, points_in};
pub use questions::{listing, listing_in, listing_length, listing_length_in};
pub use refusal::Refusal;
