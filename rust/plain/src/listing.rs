//! The copy listing of a core: document 01, "Copies and frames".

use crate::frames::{measure, walk, Take};
use crate::pairs::Pairs;
use crate::pen::Pen;
use crate::points::Group;
use crate::reading::{read, Refusal, NOTHING};

impl Take for Pen<'_> {
    #[inline(always)]
    fn frame(&mut self, start: u32, copies: u32) {
        self.put(start << 12 | copies, 32);
    }

    #[inline(always)]
    fn write(&mut self, label: u32, writer: u32) {
        self.put(label << 5 | writer, 12);
    }

    #[inline(always)]
    fn read(&mut self, label: u32, reader: u32) {
        self.put(1 << 11 | label << 5 | reader, 12);
    }
}

/// The listing in the first bytes of the buffer; answers how many.
pub fn listing(image: &[u8], core: u64, buffer: &mut [u8]) -> Result<u64, Refusal> {
    let mut table = NOTHING;
    read(image, &mut table)?;
    if core >= table.cores as u64 {
        return Err((12, 0));
    }
    let core = core as u32;
    let pairs = Pairs::new(&table, core);
    let (publishing, reading) = pairs.groups();
    // A small table needs no memory but this.
    let mut few = [Group::EMPTY; 2];
    let mut many = Vec::new();
    let groups = match few.get_mut(..publishing + reading) {
        Some(groups) => groups,
        None => {
            many.resize(publishing + reading, Group::EMPTY);
            &mut many[..]
        }
    };
    let (publishing, reading) = groups.split_at_mut(publishing);
    pairs.gather(publishing, reading);
    let (frames, bytes) = measure(table.hyperperiod, publishing, reading);
    let Some(lent) = usize::try_from(bytes).ok().and_then(|bytes| buffer.get_mut(..bytes)) else {
        return Err((11, 0));
    };
    let mut pen = Pen::new(lent);
    pen.put(core, 3);
    pen.put(table.hyperperiod, 20);
    pen.put(frames, 20);
    walk(&table, frames, publishing, reading, &mut pen);
    pen.end();
    Ok(bytes)
}
