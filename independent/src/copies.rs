//! Document 01, "Copies and frames": the copies of a core within one round of the
//! hyperperiod, gathered into frames in the listed order.

use std::collections::BTreeSet;

use crate::image::Table;
use crate::points::Rounds;

#[derive(Debug, Clone, Copy, PartialEq, Eq, PartialOrd, Ord)]
pub enum Kind {
    /// Outgoing to shared, on the writer's core.
    Write,
    /// Shared to a reader's incoming, on the reader's core.
    Read,
}

/// One copy. The order of the fields is the order inside a frame: the writes by
/// rising label, then the reads by rising label and within a label by rising task.
#[derive(Debug, Clone, Copy, PartialEq, Eq, PartialOrd, Ord)]
pub struct LabelCopy {
    pub kind: Kind,
    pub label: usize,
    /// The writer of a write, the reader of a read.
    pub task: usize,
}

/// An instant at which a core has at least one copy.
#[derive(Debug, Clone, PartialEq, Eq)]
pub struct Frame {
    pub start: u64,
    pub copies: Vec<LabelCopy>,
}

/// What asks for a copy again and again: one label with one of its readers.
struct Source<'a> {
    copy: LabelCopy,
    instants: Box<dyn Iterator<Item = u64> + 'a>,
}

/// The frames of one core by rising time. The next copy of each source waits in a
/// sorted calendar; once taken, it is replaced by the following one of its source.
pub struct Frames<'a> {
    sources: Vec<Source<'a>>,
    calendar: BTreeSet<(u64, LabelCopy, usize)>,
}

impl<'a> Frames<'a> {
    pub fn of(table: &'a Table, rounds: &'a Rounds, core: u64) -> Frames<'a> {
        let mut sources = Vec::new();
        let end = table.hyperperiod;
        for (number, label) in table.labels.iter().enumerate() {
            let writer = &table.tasks[label.writer];
            for &reader_number in &label.readers {
                let reader = &table.tasks[reader_number];
                let round = rounds.get(writer.period, reader.period);
                if writer.core == core {
                    sources.push(Source {
                        copy: LabelCopy { kind: Kind::Write, label: number, task: label.writer },
                        instants: Box::new(round.publishing_until(end)),
                    });
                }
                if reader.core == core {
                    sources.push(Source {
                        copy: LabelCopy { kind: Kind::Read, label: number, task: reader_number },
                        instants: Box::new(round.reading_until(end)),
                    });
                }
            }
        }
        let mut frames = Frames { sources, calendar: BTreeSet::new() };
        for source in 0..frames.sources.len() {
            frames.enter_next(source);
        }
        frames
    }

    /// Enters the following copy of a source, if the round holds one more.
    fn enter_next(&mut self, source: usize) {
        if let Some(instant) = self.sources[source].instants.next() {
            let copy = self.sources[source].copy;
            self.calendar.insert((instant, copy, source));
        }
    }
}

impl Iterator for Frames<'_> {
    type Item = Frame;

    fn next(&mut self) -> Option<Frame> {
        let start = self.calendar.first()?.0;
        let mut copies = Vec::new();
        while let Some(&(instant, copy, source)) = self.calendar.first() {
            if instant != start {
                break;
            }
            self.calendar.pop_first();
            self.enter_next(source);
            // Several readers may ask for the same write; it is one copy.
            if copies.last() != Some(&copy) {
                copies.push(copy);
            }
        }
        Some(Frame { start, copies })
    }
}
