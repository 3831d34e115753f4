//! The parts of the plain reading: fields, the search for a step's label, the end of the image and
//! the hyperperiod.

use crate::reading::{Refusal, Table};

/// The field of 1 to 32 bits at a place; refused 1 where the image ends before the field does.
#[inline(always)]
pub fn field(image: &[u8], at: usize, width: usize) -> Result<u32, Refusal> {
    let from = at / 8;
    if let Some(eight) = image.get(from..).and_then(|rest| rest.first_chunk::<8>()) {
        return Ok((u64::from_be_bytes(*eight) << (at % 8) >> (64 - width)) as u32);
    }
    let end = at + width;
    let Some(bytes) = image.get(from..end.div_ceil(8)) else {
        return Err((1, at as u64));
    };
    let mut number = 0u64;
    for &byte in bytes {
        number = number << 8 | u64::from(byte);
    }
    Ok((number >> (end.next_multiple_of(8) - end) & ((1 << width) - 1)) as u32)
}

/// A field from `least` up to, and without, `bound`; else refused with `number` at its start.
#[inline(always)]
pub fn ranged(
    image: &[u8],
    at: usize,
    width: usize,
    (least, bound): (u32, u32),
    number: u32,
) -> Result<u32, Refusal> {
    let value = field(image, at, width)?;
    if least <= value && value < bound {
        Ok(value)
    } else {
        Err((number, at as u64))
    }
}

/// Of each task its last label, and of each label the one before it with the same writer; each as
/// its number plus one, and 0 where there is none.
pub struct Links {
    latest: [u8; 32],
    before: [u8; 64],
}

pub fn linked(writers: &[u32]) -> Links {
    let mut links = Links { latest: [0; 32], before: [0; 64] };
    for (label, &writer) in writers.iter().enumerate() {
        links.before[label] = links.latest[writer as usize];
        links.latest[writer as usize] = label as u8 + 1;
    }
    links
}

/// Whether some label goes from the one task to the other.
pub fn joined(table: &Table, links: &Links, writer: u32, reader: u32) -> bool {
    let mark = 1 << (31 - reader);
    let mut label = usize::from(links.latest[writer as usize]);
    while label > 0 {
        if table.readers[label - 1] & mark != 0 {
            return true;
        }
        label = usize::from(links.before[label - 1]);
    }
    false
}

/// The fill after the last field, and nothing after it.
pub fn check_end(image: &[u8], at: usize) -> Result<(), Refusal> {
    let end = at.next_multiple_of(8);
    for bit in at..end {
        ranged(image, bit, 1, (0, 1), 9)?;
    }
    if image.len() > end / 8 {
        return Err((9, end as u64));
    }
    Ok(())
}

/// The least common multiple, at most 1,000,000.
pub fn hyperperiod(periods: &[u32]) -> Option<u32> {
    let mut common = 1;
    for &period in periods {
        let period = u64::from(period);
        let (mut a, mut b) = (common.max(period), common.min(period));
        while b > 0 {
            (a, b) = (b, a % b);
        }
        common = common / a * period;
        if common > 1_000_000 {
            return None;
        }
    }
    Some(common as u32)
}
