//! Document 01, "What the generator covers": the three questions, each asked of
//! the image itself. The image's own refusal comes first, then 12, 13, 11. Whoever
//! asks more than once about one image may read it once and ask about its table.

use crate::ages::{ages_of, Ages};
use crate::hyperperiod::MOST;
use crate::image::{joined, read, Table};
use crate::listing::{need, write, Need};
use crate::points::{walk, Rounds};
use crate::refusal::Refusal;

/// The n-th publishing and reading point of a pair of tasks.
pub fn points(image: &[u8], writer: u64, reader: u64, n: u64) -> Result<(u64, u64), Refusal> {
    points_in(&read(image)?, writer, reader, n)
}

pub fn points_in(table: &Table, writer: u64, reader: u64, n: u64) -> Result<(u64, u64), Refusal> {
    let tasks = table.tasks.len() as u64;
    if writer >= tasks || reader >= tasks || n > MOST {
        return Err(Refusal::new(12, 0));
    }
    let (writer, reader) = (writer as usize, reader as usize);
    if !joined(&table.labels, writer, reader) {
        return Err(Refusal::new(13, 0));
    }
    Ok(walk(table.tasks[writer].period, table.tasks[reader].period).point(n))
}

/// The copy listing of a core, into the first bytes of the buffer; answers how
/// many bytes it took. A refusal leaves the buffer as it was.
pub fn listing(image: &[u8], core: u64, buffer: &mut [u8]) -> Result<usize, Refusal> {
    listing_in(&read(image)?, core, buffer)
}

pub fn listing_in(table: &Table, core: u64, buffer: &mut [u8]) -> Result<usize, Refusal> {
    let (rounds, need) = measure(table, core)?;
    if (buffer.len() as u64) < need.bytes() {
        return Err(Refusal::new(11, 0));
    }
    Ok(write(table, &rounds, core, need, buffer))
}

/// The number of bytes of a core's listing.
pub fn listing_length(image: &[u8], core: u64) -> Result<u64, Refusal> {
    listing_length_in(&read(image)?, core)
}

pub fn listing_length_in(table: &Table, core: u64) -> Result<u64, Refusal> {
    let (_, need) = measure(table, core)?;
    Ok(need.bytes())
}

fn measure(table: &Table, core: u64) -> Result<(Rounds, Need), Refusal> {
    if core >= table.cores {
        return Err(Refusal::new(12, 0));
    }
    let rounds = Rounds::of(table);
    let need = need(table, &rounds, core);
    Ok((rounds, need))
}

/// The ages of a chain.
pub fn ages(image: &[u8], chain: u64) -> Result<Ages, Refusal> {
    ages_in(&read(image)?, chain)
}

pub fn ages_in(table: &Table, chain: u64) -> Result<Ages, Refusal> {
    if chain >= table.chains.len() as u64 {
        return Err(Refusal::new(12, 0));
    }
    let chain = &table.chains[chain as usize];
    // What is common to the chain's periods divides the table's hyperperiod, so
    // the refusal here never happens.
    ages_of(&table.periods_along(chain)).ok_or(Refusal::new(10, 0))
}
