//! The reading of an image: document 01, "Table image" and the numbers 1 to 10 of "Numbers
//! that say no". Fields are taken by whole bytes and shifts, eight bytes at once where the image
//! has them; the table is held in arrays. The proved code's own means are used too, so that no ratio
//! rests on a slower way: the search for a step's label meets the labels of one writer only, and a
//! greatest common divisor begins with the larger number.

use crate::parts::{check_end, field, hyperperiod, joined, linked, ranged};

pub type Refusal = (u32, u64);

pub struct Table {
    pub cores: usize,
    pub tasks: usize,
    pub labels: usize,
    pub chains: usize,
    pub core: [u32; 32],
    pub period: [u32; 32],
    pub writer: [u32; 64],
    pub readers: [u32; 64],
    pub length: [u32; 16],
    pub rows: [[u32; 8]; 16],
    pub hyperperiod: u32,
}

/// The table with nothing in it.
pub const NOTHING: Table = Table {
    cores: 0,
    tasks: 0,
    labels: 0,
    chains: 0,
    core: [0; 32],
    period: [0; 32],
    writer: [0; 64],
    readers: [0; 64],
    length: [0; 16],
    rows: [[0; 8]; 16],
    hyperperiod: 0,
};

/// Reads an image into a table that holds nothing yet.
pub fn read(image: &[u8], table: &mut Table) -> Result<(), Refusal> {
    ranged(image, 0, 4, (1, 2), 2)?;
    let cores = ranged(image, 4, 4, (1, 9), 3)?;
    let tasks = ranged(image, 8, 6, (1, 33), 3)?;
    table.cores = cores as usize;
    table.tasks = tasks as usize;
    table.labels = ranged(image, 14, 7, (0, 65), 3)? as usize;
    table.chains = ranged(image, 21, 5, (0, 17), 3)? as usize;
    let mut at = 26;
    for task in 0..table.tasks {
        table.core[task] = ranged(image, at, 3, (0, cores), 4)?;
        table.period[task] = ranged(image, at + 3, 20, (1, 1_000_001), 5)?;
        at += 23;
    }
    for label in 0..table.labels {
        let writer = ranged(image, at, 5, (0, tasks), 6)?;
        let readers = field(image, at + 5, 32)?;
        let allowed = (u64::from(u32::MAX) << (32 - tasks)) as u32 & !(1 << (31 - writer));
        if readers & !allowed != 0 {
            return Err((7, at as u64 + 5));
        }
        table.writer[label] = writer;
        table.readers[label] = readers;
        at += 37;
    }
    let links = linked(&table.writer[..table.labels]);
    for chain in 0..table.chains {
        let length = ranged(image, at, 4, (2, 9), 8)?;
        table.length[chain] = length;
        at += 4;
        for step in 0..length as usize {
            let task = ranged(image, at, 5, (0, tasks), 8)?;
            if step > 0 && !joined(table, &links, table.rows[chain][step - 1], task) {
                return Err((8, at as u64));
            }
            table.rows[chain][step] = task;
            at += 5;
        }
    }
    check_end(image, at)?;
    table.hyperperiod = hyperperiod(&table.period[..table.tasks]).ok_or((10, 0))?;
    Ok(())
}
