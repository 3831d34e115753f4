//! Document 01, "Points", as source document 000 says it in words: there is one
//! publishing and one reading point for each release of the slower task of a
//! pair. The publishing point is the writer's last release at or before it; the
//! reading point is the reader's first release at or after it.

use std::collections::BTreeMap;

use crate::image::Table;

/// The points of a pair from tick 0 up to, and without, the first later tick at
/// which both tasks are released together.
///
/// From that tick on both tasks are released as they were from tick 0 on, so all
/// further points are those of the first round, moved by whole rounds. Each point
/// of a round lies inside it: the slower task's last release in the round is one
/// slow period before its end, and the faster task's next release is nearer.
pub struct Round {
    pub length: u64,
    /// Publishing point and reading point, for n from 0.
    pub points: Vec<(u64, u64)>,
}

/// Walks the releases of both tasks, with periods of at least 1, through one round.
pub fn walk(writer_period: u64, reader_period: u64) -> Round {
    let slow_period = writer_period.max(reader_period);
    let mut slow_release = 0;
    let mut writer_release = 0;
    let mut reader_release = 0;
    let mut points = Vec::new();
    loop {
        while writer_release + writer_period <= slow_release {
            writer_release += writer_period;
        }
        while reader_release < slow_release {
            reader_release += reader_period;
        }
        let together = writer_release == slow_release && reader_release == slow_release;
        if together && slow_release > 0 {
            return Round { length: slow_release, points };
        }
        points.push((writer_release, reader_release));
        slow_release += slow_period;
    }
}

impl Round {
    /// The n-th publishing and reading point, whole rounds skipped at once.
    pub fn point(&self, n: u64) -> (u64, u64) {
        let in_round = self.points.len() as u64;
        let skipped = n / in_round * self.length;
        let (publishing, reading) = self.points[(n % in_round) as usize];
        (skipped + publishing, skipped + reading)
    }

    /// The publishing points before an end that is a whole number of rounds, rising.
    pub fn publishing_until(&self, end: u64) -> impl Iterator<Item = u64> + '_ {
        starts(self.length, end)
            .flat_map(|start| self.points.iter().map(move |point| start + point.0))
    }

    /// The reading points before an end that is a whole number of rounds, rising.
    pub fn reading_until(&self, end: u64) -> impl Iterator<Item = u64> + '_ {
        starts(self.length, end)
            .flat_map(|start| self.points.iter().map(move |point| start + point.1))
    }

    /// The number of points before an end that is a whole number of rounds.
    pub fn count_until(&self, end: u64) -> u64 {
        end / self.length * self.points.len() as u64
    }
}

fn starts(length: u64, end: u64) -> impl Iterator<Item = u64> {
    (0..end).step_by(length as usize)
}

/// The rounds of all pairs of a writer and a reader of a table. Points depend on
/// the two periods only, so each pair of periods is walked once.
pub struct Rounds {
    rounds: BTreeMap<(u64, u64), Round>,
}

impl Rounds {
    pub fn of(table: &Table) -> Rounds {
        let mut rounds = BTreeMap::new();
        for label in &table.labels {
            let writer_period = table.tasks[label.writer].period;
            for &reader in &label.readers {
                let reader_period = table.tasks[reader].period;
                rounds
                    .entry((writer_period, reader_period))
                    .or_insert_with(|| walk(writer_period, reader_period));
            }
        }
        Rounds { rounds }
    }

    pub fn get(&self, writer_period: u64, reader_period: u64) -> &Round {
        &self.rounds[&(writer_period, reader_period)]
    }
}
