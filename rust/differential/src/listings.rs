//! Which listings are asked for: of an accepted image those of every core, with the room exact, one
//! byte less, some more and none, and of cores that it does not have; of a refused one some core's.

use independent::{Refusal, Table};

use crate::share::Share;

/// The cores that an image is asked for.
pub fn cores(share: &mut Share, read: Result<&Table, Refusal>) -> Vec<u64> {
    let Ok(table) = read else {
        return vec![0];
    };
    if share.affords(work(table)) {
        (0..=table.cores).chain([1 << 32]).collect()
    } else {
        vec![table.cores]
    }
}

/// About how long the independent program takes for all cores, in copies.
fn work(table: &Table) -> u64 {
    let mut copies = 0;
    for label in &table.labels {
        for &reader in &label.readers {
            let slower = table.tasks[label.writer].period.max(table.tasks[reader].period);
            copies += 2 * table.hyperperiod / slower;
        }
    }
    copies + table.hyperperiod * (table.labels.len() as u64 + table.cores) / 100
}

/// The rooms that are lent for the listing of a core, by its length.
pub fn rooms(core: u64, length: Result<u64, Refusal>) -> Vec<usize> {
    match length {
        Ok(length) => {
            let length = length as usize;
            vec![length, length - 1, length + 1 + 7 * core as usize, 0]
        }
        Err(_) => vec![0, 40],
    }
}
