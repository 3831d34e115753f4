//! The program, which walks and simulates, beside the formulas of document 01, right
//! and wrong: "Points", "Copies and frames", "Age of a chain", "Four errors that come
//! easily".

mod decode;
mod errors;
mod random_tables;
mod reference;
