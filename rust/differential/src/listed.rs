//! A listing taken apart and put together again, for programs that alter it; and listings by other
//! rules than document 01's.

use std::collections::{BTreeMap, BTreeSet};

use independent::bits::Bits;
use independent::copies::{Kind, LabelCopy};
use independent::make::{pack, Field};
use independent::{Label, Table};

/// The fields as they stand, right or wrong.
pub struct Listed {
    pub core: u64,
    pub round: u64,
    pub count: u64,
    pub frames: Vec<Frame>,
}

pub struct Frame {
    pub start: u64,
    pub count: u64,
    /// Kind, label and task of each copy in 12 bits.
    pub copies: Vec<u64>,
}

impl Listed {
    /// Of the bytes of a listing.
    pub fn of(bytes: &[u8]) -> Listed {
        let mut bits = Bits::new(bytes);
        let mut field = |width| bits.field(width, 1, |_| true).expect("the listing is whole");
        let [core, round, count] = [3, 20, 20].map(&mut field);
        let frames = (0..count).map(|_| {
            let [start, count] = [20, 12].map(&mut field);
            Frame { start, count, copies: (0..count).map(|_| field(12)).collect() }
        });
        Listed { core, round, count, frames: frames.collect() }
    }

    /// The counts are those of the frames and copies that there are.
    pub fn recount(&mut self) {
        self.count = self.frames.len() as u64;
        for frame in &mut self.frames {
            frame.count = frame.copies.len() as u64;
        }
    }

    fn fields(&self) -> Vec<Field> {
        let mut fields = vec![(self.core, 3), (self.round, 20), (self.count, 20)];
        for frame in &self.frames {
            fields.extend([(frame.start, 20), (frame.count, 12)]);
            fields.extend(frame.copies.iter().map(|&copy| (copy, 12)));
        }
        fields
    }

    pub fn bytes(&self) -> Vec<u8> {
        pack(&self.fields())
    }

    /// How many bits fill the last byte.
    pub fn fill(&self) -> u32 {
        let bits: u32 = self.fields().iter().map(|&(_, width)| width).sum();
        bits.next_multiple_of(8) - bits
    }
}

/// At which instants a label is written, and at which a reader of it is served.
pub struct Rule {
    pub writes: fn(&Table, &Label) -> Vec<u64>,
    pub reads: fn(&Table, &Label, usize) -> Vec<u64>,
}

/// What a core has by a rule.
pub fn by_rule(table: &Table, core: u64, rule: &Rule) -> Listed {
    let mut instants: BTreeMap<u64, BTreeSet<LabelCopy>> = BTreeMap::new();
    let mut take = |task: usize, kind, label, at: Vec<u64>| {
        for instant in at.into_iter().filter(|_| table.tasks[task].core == core) {
            instants.entry(instant).or_default().insert(LabelCopy { kind, label, task });
        }
    };
    for (number, label) in table.labels.iter().enumerate() {
        take(label.writer, Kind::Write, number, (rule.writes)(table, label));
        for &reader in &label.readers {
            take(reader, Kind::Read, number, (rule.reads)(table, label, reader));
        }
    }
    let bits = |copy: LabelCopy| {
        let kind = u64::from(copy.kind == Kind::Read);
        kind << 11 | (copy.label as u64) << 5 | copy.task as u64
    };
    let frames = instants.into_iter().map(|(start, copies)| Frame {
        start,
        count: 0,
        copies: copies.into_iter().map(bits).collect(),
    });
    let frames = frames.collect();
    let mut listed = Listed { core, round: table.hyperperiod, count: 0, frames };
    listed.recount();
    listed
}

/// The releases of a task in a round.
pub fn releases(table: &Table, task: usize) -> Vec<u64> {
    (0..table.hyperperiod).step_by(table.tasks[task].period as usize).collect()
}

/// The last release of a task at or before each release of the slower of two, in a round.
pub fn at_or_before(table: &Table, task: usize, other: usize) -> Vec<u64> {
    let (own, other) = (table.tasks[task].period, table.tasks[other].period);
    let slower = (0..table.hyperperiod).step_by(own.max(other) as usize);
    slower.map(|tick| tick / own * own).collect()
}

/// The first release of a task at or after each release of the slower of two, in a round.
pub fn at_or_after(table: &Table, task: usize, other: usize) -> Vec<u64> {
    let (own, other) = (table.tasks[task].period, table.tasks[other].period);
    let slower = (0..table.hyperperiod).step_by(own.max(other) as usize);
    slower.map(|tick| tick.div_ceil(own) * own).collect()
}
