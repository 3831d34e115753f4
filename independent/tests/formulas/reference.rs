//! Document 01, "Points", "Copies and frames", "Age of a chain", by their formulas,
//! with the four errors built in at wish.

use std::collections::BTreeSet;

use independent::{Ages, Label, Table};

#[derive(Clone, Copy, PartialEq, Eq)]
pub enum Error {
    ReadingPointByFloor,
    PublishingForOneReader,
    ReadingBeforeWriting,
    WithoutInstantZero,
}

pub fn publishing_point(writer_period: u64, reader_period: u64, n: u64) -> u64 {
    n * writer_period.max(reader_period) / writer_period * writer_period
}

pub fn reading_point(writer_period: u64, reader_period: u64, n: u64, error: Option<Error>) -> u64 {
    let slow_release = n * writer_period.max(reader_period);
    if error == Some(Error::ReadingPointByFloor) {
        slow_release / reader_period * reader_period
    } else {
        slow_release.div_ceil(reader_period) * reader_period
    }
}

/// The lines of all cores, as the printing program prints them.
pub fn core_lines(table: &Table, error: Option<Error>) -> String {
    let mut text = String::new();
    for core in 0..table.cores {
        text += &format!("core {core}\n");
        let writes = writes_by_instant(table, core, error);
        let reads = reads_by_instant(table, core, error);
        for (instant, (writes, reads)) in writes.into_iter().zip(reads).enumerate() {
            let copies = match error {
                Some(Error::WithoutInstantZero) if instant == 0 => Vec::new(),
                Some(Error::ReadingBeforeWriting) => [reads, writes].concat(),
                _ => [writes, reads].concat(),
            };
            if !copies.is_empty() {
                text += &format!("{instant} {}\n", copies.join(" "));
            }
        }
    }
    text
}

fn writes_by_instant(table: &Table, core: u64, error: Option<Error>) -> Vec<Vec<String>> {
    let mut writes = vec![Vec::new(); table.hyperperiod as usize];
    for (number, label) in table.labels.iter().enumerate() {
        let mut readers = label.readers.clone();
        if error == Some(Error::PublishingForOneReader) {
            readers.truncate(1);
        }
        let mut instants = BTreeSet::new();
        for reader in readers {
            let (writer_period, reader_period) = periods(table, label, reader);
            instants.extend(in_round(table, |n| publishing_point(writer_period, reader_period, n)));
        }
        if table.tasks[label.writer].core == core {
            instants.iter().for_each(|&at| writes[at as usize].push(format!("W{number}")));
        }
    }
    writes
}

fn reads_by_instant(table: &Table, core: u64, error: Option<Error>) -> Vec<Vec<String>> {
    let mut reads = vec![Vec::new(); table.hyperperiod as usize];
    for (number, label) in table.labels.iter().enumerate() {
        for &reader in label.readers.iter().filter(|&&reader| table.tasks[reader].core == core) {
            let (writer_period, reader_period) = periods(table, label, reader);
            for at in in_round(table, |n| reading_point(writer_period, reader_period, n, error)) {
                reads[at as usize].push(format!("R{number}:{reader}"));
            }
        }
    }
    reads
}

/// The points, for n from 0, that are less than the hyperperiod.
fn in_round(table: &Table, point: impl Fn(u64) -> u64) -> BTreeSet<u64> {
    (0..).map(point).take_while(|&at| at < table.hyperperiod).collect()
}

fn periods(table: &Table, label: &Label, reader: usize) -> (u64, u64) {
    (table.tasks[label.writer].period, table.tasks[reader].period)
}

/// E(t), each task taking its data at its first release at or after the instant; with
/// reading before writing, at its first release after it.
pub fn end_of(periods: &[u64], start: u64, error: Option<Error>) -> u64 {
    let mut release = 0;
    let mut instant = start;
    for &period in &periods[1..] {
        release = match error {
            Some(Error::ReadingBeforeWriting) => (instant / period + 1) * period,
            _ => instant.div_ceil(period) * period,
        };
        instant = release + period;
    }
    release
}

/// The answer for a chain, from E at each start.
pub fn ages_of(periods: &[u64], error: Option<Error>) -> Ages {
    let own_hyperperiod = periods.iter().fold(1, |common, &period| lcm(common, period));
    let mut lengths = Vec::new();
    let mut ages = Vec::new();
    let last_period = periods[periods.len() - 1];
    for start in (0..own_hyperperiod).step_by(periods[0] as usize) {
        let end = end_of(periods, start, error);
        let next_end = end_of(periods, start + periods[0], error);
        if end < next_end {
            lengths.push(end - start);
            ages.push(periods[0] + next_end - start + last_period);
        }
    }
    let worst = *ages.iter().max().unwrap();
    let best = *ages.iter().min().unwrap();
    Ages {
        paths: ages.len() as u64,
        longest: *lengths.iter().max().unwrap(),
        worst,
        best,
        jitter: worst - best,
    }
}

pub fn lcm(one: u64, other: u64) -> u64 {
    let (mut larger, mut smaller) = (one, other);
    while smaller > 0 {
        (larger, smaller) = (smaller, larger % smaller);
    }
    one / larger * other
}
