//! The frames of a core: document 01, "Copies and frames". From point to point, once to measure and
//! once to hand them on. After a round every pair has the point H, so the second walk goes on where
//! the first one stopped.

use crate::points::{advance, Group};
use crate::reading::Table;

/// Takes frames one after another, each with its copies.
pub trait Take {
    fn frame(&mut self, start: u32, copies: u32);
    fn write(&mut self, label: u32, writer: u32);
    fn read(&mut self, label: u32, reader: u32);
}

/// The numbers of frames and of bytes. Walks the first round.
pub fn measure(round: u32, publishing: &mut [Group], reading: &mut [Group]) -> (u32, u64) {
    let (mut frames, mut copies) = (0, 0);
    let mut now = if publishing.is_empty() && reading.is_empty() { round } else { 0 };
    while now < round {
        let (mut written, mut reads) = (0, 0);
        let publishing = advance(publishing, now, |pair| written |= pair.labels);
        let reading = advance(reading, now, |pair| reads += u32::from(pair.count));
        frames += 1;
        copies += u64::from(written.count_ones() + reads);
        now = publishing.min(reading);
    }
    (frames, (43 + 32 * u64::from(frames) + 12 * copies).div_ceil(8))
}

/// The frames. Walks the second round.
#[inline(always)]
pub fn walk(
    table: &Table,
    frames: u32,
    publishing: &mut [Group],
    reading: &mut [Group],
    to: &mut impl Take,
) {
    let mut now = table.hyperperiod;
    for _ in 0..frames {
        // Labels, and of each writer the readers that are served.
        let (mut written, mut read, mut reads) = (0, 0, 0);
        let mut served = [0; 32];
        let publishing = advance(publishing, now, |pair| written |= pair.labels);
        let reading = advance(reading, now, |pair| {
            read |= pair.labels;
            reads += u32::from(pair.count);
            served[usize::from(pair.writer) % 32] |= pair.reader;
        });
        to.frame(now - table.hyperperiod, written.count_ones() + reads);
        while written != 0 {
            let label = written.trailing_zeros() as usize % 64;
            written &= written - 1;
            to.write(label as u32, table.writer[label]);
        }
        while read != 0 {
            let label = read.trailing_zeros() as usize % 64;
            read &= read - 1;
            let mut readers = table.readers[label] & served[table.writer[label] as usize % 32];
            // The first bit is that of task 0.
            while readers != 0 {
                let task = readers.leading_zeros();
                readers &= !(1 << (31 - task));
                to.read(label as u32, task);
            }
        }
        now = publishing.min(reading);
    }
}
