//! Document 01, "Copies and frames", the passage "A listing": its length, found
//! without building it, and its bytes.

use std::collections::BTreeSet;

use crate::bits::BitWriter;
use crate::copies::{Frames, Kind};
use crate::image::Table;
use crate::points::Rounds;

/// How much one core's listing holds.
#[derive(Debug, Clone, Copy, PartialEq, Eq)]
pub struct Need {
    pub frames: u64,
    pub copies: u64,
}

impl Need {
    pub fn bytes(&self) -> u64 {
        let head = 3 + 20 + 20;
        let bits = head + self.frames * (20 + 12) + self.copies * (1 + 6 + 5);
        bits.div_ceil(8)
    }
}

/// Counts frames and copies by marking instants of the round. Pairs with the same
/// periods have the same points, so each pair of periods is marked once.
pub fn need(table: &Table, rounds: &Rounds, core: u64) -> Need {
    let end = table.hyperperiod;
    let mut with_copy = vec![false; end as usize];
    let mut copies = 0;
    let mut reads_marked = BTreeSet::new();
    for label in &table.labels {
        let writer = &table.tasks[label.writer];
        if writer.core == core {
            let mut written = vec![false; end as usize];
            let reader_periods: BTreeSet<u64> =
                label.readers.iter().map(|&reader| table.tasks[reader].period).collect();
            for reader_period in reader_periods {
                for instant in rounds.get(writer.period, reader_period).publishing_until(end) {
                    written[instant as usize] = true;
                }
            }
            for (instant, _) in written.iter().enumerate().filter(|(_, &written)| written) {
                copies += 1;
                with_copy[instant] = true;
            }
        }
        for &reader in &label.readers {
            let reader = &table.tasks[reader];
            if reader.core == core {
                let round = rounds.get(writer.period, reader.period);
                copies += round.count_until(end);
                if reads_marked.insert((writer.period, reader.period)) {
                    for instant in round.reading_until(end) {
                        with_copy[instant as usize] = true;
                    }
                }
            }
        }
    }
    let frames = with_copy.iter().filter(|&&marked| marked).count() as u64;
    Need { frames, copies }
}

/// Writes a core's listing into the first bytes of a buffer that is long enough,
/// and says how many bytes it took.
pub fn write(table: &Table, rounds: &Rounds, core: u64, need: Need, buffer: &mut [u8]) -> usize {
    let mut bits = BitWriter::new(buffer);
    bits.field(core, 3);
    bits.field(table.hyperperiod, 20);
    bits.field(need.frames, 20);
    for frame in Frames::of(table, rounds, core) {
        bits.field(frame.start, 20);
        bits.field(frame.copies.len() as u64, 12);
        for copy in frame.copies {
            let kind = match copy.kind {
                Kind::Write => 0,
                Kind::Read => 1,
            };
            bits.field(kind, 1);
            bits.field(copy.label as u64, 6);
            bits.field(copy.task as u64, 5);
        }
    }
    bits.bytes()
}
