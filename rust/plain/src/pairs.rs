//! The pairs of communicating tasks that a core has: for publishing those whose writer is on it, for
//! reading those whose reader is.

use crate::points::{put, Group, Pair, Steps};
use crate::reading::Table;

/// What decides which pairs there are.
pub struct Pairs<'a> {
    table: &'a Table,
    /// Of each task the readers of all its labels.
    joined: [u32; 32],
    /// The tasks of the core, as in a readers field.
    here: u32,
}

/// A task's bit in a readers field.
fn bit(task: usize) -> u32 {
    1 << (31 - task % 32)
}

impl<'a> Pairs<'a> {
    pub fn new(table: &'a Table, core: u32) -> Pairs<'a> {
        let mut joined = [0; 32];
        for label in 0..table.labels {
            joined[table.writer[label] as usize % 32] |= table.readers[label];
        }
        let mut here = 0;
        for task in 0..table.tasks {
            here |= if table.core[task] == core { bit(task) } else { 0 };
        }
        Pairs { table, joined, here }
    }

    /// How many groups the pairs for publishing take, and those for reading.
    pub fn groups(&self) -> (usize, usize) {
        let (mut publishing, mut reading) = (0, 0);
        for (task, &readers) in self.joined[..self.table.tasks].iter().enumerate() {
            if readers != 0 {
                publishing += if self.here & bit(task) != 0 { readers.count_ones() } else { 0 };
                reading += (readers & self.here).count_ones();
            }
        }
        (Group::holding(publishing), Group::holding(reading))
    }

    /// Puts the pairs into so many groups.
    pub fn gather(&self, publishing: &mut [Group], reading: &mut [Group]) {
        let Pairs { table, joined, here } = self;
        let (mut publishes, mut reads) = (0, 0);
        for writer in 0..table.tasks {
            let writes = here & bit(writer) != 0;
            let mut readers = if writes { joined[writer] } else { joined[writer] & here };
            while readers != 0 {
                let task = readers.leading_zeros() as usize;
                let reader = bit(task);
                readers ^= reader;
                let labels = self.labels(writer as u32, reader);
                let count = labels.count_ones() as u8;
                let pair = |steps| Pair { steps, labels, count, writer: writer as u8, reader };
                let periods = (table.period[writer], table.period[task]);
                if writes {
                    put(publishing, publishes, pair(Steps::of_writer(periods.0, periods.1)));
                    publishes += 1;
                }
                if here & reader != 0 {
                    put(reading, reads, pair(Steps::of_reader(periods.0, periods.1)));
                    reads += 1;
                }
            }
        }
    }

    /// The labels from a task to a reader, label 0 in the lowest bit.
    fn labels(&self, writer: u32, reader: u32) -> u64 {
        let mut labels = 0;
        for label in 0..self.table.labels {
            let goes =
                self.table.writer[label] == writer && self.table.readers[label] & reader != 0;
            labels |= u64::from(goes) << label;
        }
        labels
    }
}
