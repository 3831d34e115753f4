//! Document 01, "Table image", with the numbers 1 to 10 of "Numbers that say no":
//! the fields in image order, each read whole and then checked; then what follows
//! the last field; then the hyperperiod.

use crate::bits::Bits;
use crate::hyperperiod::{hyperperiod, MOST};
use crate::refusal::Refusal;

#[derive(Debug, Clone, PartialEq, Eq)]
pub struct Task {
    pub core: u64,
    pub period: u64,
}

#[derive(Debug, Clone, PartialEq, Eq)]
pub struct Label {
    pub writer: usize,
    /// Task numbers, rising.
    pub readers: Vec<usize>,
}

#[derive(Debug, Clone, PartialEq, Eq)]
pub struct Table {
    pub cores: u64,
    pub tasks: Vec<Task>,
    pub labels: Vec<Label>,
    /// The task numbers of each chain.
    pub chains: Vec<Vec<usize>>,
    pub hyperperiod: u64,
}

impl Table {
    /// The periods of the tasks of a chain, in the chain's order.
    pub fn periods_along(&self, chain: &[usize]) -> Vec<u64> {
        chain.iter().map(|&task| self.tasks[task].period).collect()
    }
}

/// Whether some label is written by the one task and read by the other.
pub fn joined(labels: &[Label], writer: usize, reader: usize) -> bool {
    labels.iter().any(|label| label.writer == writer && label.readers.contains(&reader))
}

pub fn read(image: &[u8]) -> Result<Table, Refusal> {
    let mut bits = Bits::new(image);

    bits.field(4, 2, |version| version == 1)?;
    let cores = bits.field(4, 3, |count| (1..=8).contains(&count))?;
    let task_count = bits.field(6, 3, |count| (1..=32).contains(&count))?;
    let label_count = bits.field(7, 3, |count| count <= 64)?;
    let chain_count = bits.field(5, 3, |count| count <= 16)?;

    let mut tasks = Vec::new();
    for _ in 0..task_count {
        let core = bits.field(3, 4, |core| core < cores)?;
        let period = bits.field(20, 5, |period| (1..=MOST).contains(&period))?;
        tasks.push(Task { core, period });
    }

    let mut labels = Vec::new();
    for _ in 0..label_count {
        labels.push(read_label(&mut bits, tasks.len())?);
    }

    let mut chains = Vec::new();
    for _ in 0..chain_count {
        chains.push(read_chain(&mut bits, tasks.len(), &labels)?);
    }

    check_end(&mut bits)?;
    match hyperperiod(tasks.iter().map(|task| task.period)) {
        Some(hyperperiod) => Ok(Table { cores, tasks, labels, chains, hyperperiod }),
        None => Err(Refusal::new(10, 0)),
    }
}

fn read_label(bits: &mut Bits, tasks: usize) -> Result<Label, Refusal> {
    let writer = bits.field(5, 6, |writer| writer < tasks as u64)? as usize;
    let start = bits.place();
    let mut readers = Vec::new();
    for (task, reads) in bits.flags(32)?.into_iter().enumerate() {
        if reads {
            readers.push(task);
        }
    }
    if readers.iter().any(|&reader| reader >= tasks || reader == writer) {
        return Err(Refusal::new(7, start));
    }
    Ok(Label { writer, readers })
}

fn read_chain(bits: &mut Bits, tasks: usize, labels: &[Label]) -> Result<Vec<usize>, Refusal> {
    let length = bits.field(4, 8, |length| (2..=8).contains(&length))?;
    let mut chain: Vec<usize> = Vec::new();
    for _ in 0..length {
        let start = bits.place();
        let task = bits.field(5, 8, |task| task < tasks as u64)? as usize;
        if let Some(&earlier) = chain.last() {
            if !joined(labels, earlier, task) {
                return Err(Refusal::new(8, start));
            }
        }
        chain.push(task);
    }
    Ok(chain)
}

/// Zero bits fill the last byte; nothing follows.
fn check_end(bits: &mut Bits) -> Result<(), Refusal> {
    while bits.place() % 8 != 0 {
        let place = bits.place();
        if bits.next() == Some(true) {
            return Err(Refusal::new(9, place));
        }
    }
    let place = bits.place();
    match bits.next() {
        Some(_) => Err(Refusal::new(9, place)),
        None => Ok(()),
    }
}
