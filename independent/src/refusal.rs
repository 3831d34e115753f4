//! Document 01, "Numbers that say no": a refusal carries its number together
//! with the bit at which it arose, and no other value.

use std::fmt;

#[derive(Debug, Clone, Copy, PartialEq, Eq)]
pub struct Refusal {
    pub number: u32,
    pub place: u64,
}

impl Refusal {
    pub fn new(number: u32, place: u64) -> Refusal {
        Refusal { number, place }
    }
}

/// The line that the printing program prints, without its line end.
impl fmt::Display for Refusal {
    fn fmt(&self, out: &mut fmt::Formatter<'_>) -> fmt::Result {
        write!(out, "refused {} {}", self.number, self.place)
    }
}

impl std::error::Error for Refusal {}
