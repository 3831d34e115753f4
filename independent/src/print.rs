//! Document 01, "The printing program": the text for an image.

use std::fmt;

use crate::ages::{ages_of, Ages};
use crate::copies::{Frame, Frames, Kind};
use crate::image::read;
use crate::listing::need;
use crate::points::Rounds;
use crate::refusal::Refusal;

/// The longest listing of a core, in bytes, that the printing program has room for.
pub const ROOM: u64 = 65_536;

/// Exactly what the printing program prints, line ends included.
pub fn print(image: &[u8]) -> String {
    match text(image) {
        Ok(text) => text,
        Err(refusal) => format!("{refusal}\n"),
    }
}

fn text(image: &[u8]) -> Result<String, Refusal> {
    let table = read(image)?;
    let rounds = Rounds::of(&table);
    for core in 0..table.cores {
        if need(&table, &rounds, core).bytes() > ROOM {
            return Err(Refusal::new(11, 0));
        }
    }
    let mut text = format!("hyperperiod {}\n", table.hyperperiod);
    for core in 0..table.cores {
        text += &format!("core {core}\n");
        for frame in Frames::of(&table, &rounds, core) {
            text += &frame_line(&frame);
        }
    }
    for (number, chain) in table.chains.iter().enumerate() {
        let ages = ages_of(&table.periods_along(chain)).ok_or(Refusal::new(10, 0))?;
        text += &format!("chain {number} {ages}\n");
    }
    Ok(text)
}

fn frame_line(frame: &Frame) -> String {
    let mut line = frame.start.to_string();
    for copy in &frame.copies {
        match copy.kind {
            Kind::Write => line += &format!(" W{}", copy.label),
            Kind::Read => line += &format!(" R{}:{}", copy.label, copy.task),
        }
    }
    line + "\n"
}

/// A chain's line without the chain's number.
impl fmt::Display for Ages {
    fn fmt(&self, out: &mut fmt::Formatter<'_>) -> fmt::Result {
        let Ages { paths, longest, worst, best, jitter } = self;
        write!(out, "paths {paths} long {longest} worst {worst} best {best} jitter {jitter}")
    }
}
