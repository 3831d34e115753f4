//! The kinds of images that are asked about. Each kind has to occur.

use crate::question::Question;

#[derive(Debug, Clone, Copy, PartialEq, Eq)]
pub enum Kind {
    Valid,
    Cut,
    Longer,
    Boundary,
    Changed,
    Flipped,
    Periods,
    Short,
    Long,
}

impl Kind {
    pub const ALL: [Kind; 9] = [
        Kind::Valid,
        Kind::Cut,
        Kind::Longer,
        Kind::Boundary,
        Kind::Changed,
        Kind::Flipped,
        Kind::Periods,
        Kind::Short,
        Kind::Long,
    ];

    pub fn words(self) -> &'static str {
        match self {
            Kind::Valid => "valid tables",
            Kind::Cut => "cut after some bytes",
            Kind::Longer => "bytes added or a fill bit set",
            Kind::Boundary => "one field at a boundary value",
            Kind::Changed => "some fields at any value",
            Kind::Flipped => "one bit flipped",
            Kind::Periods => "other periods",
            Kind::Short => "random bytes, at most 16",
            Kind::Long => "random bytes, more than 16",
        }
    }
}

/// Takes an image and a question.
pub type Visit<'a> = dyn FnMut(Kind, &[u8], Question) + 'a;
