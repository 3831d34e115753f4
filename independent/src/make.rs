//! Document 01, "Table image", the other way round: builds images from a
//! description, for tests. Nothing is checked, so refused images can be built too.

use crate::bits::BitWriter;

/// A value and its width in bits. Of a value too wide the low bits are taken.
pub type Field = (u64, u32);

/// A table in words of the document. The counts in the head are the lengths of
/// the lists; for other counts, change the fields before packing them.
#[derive(Debug, Clone, PartialEq, Eq)]
pub struct Description {
    pub cores: u64,
    /// Core and period of each task.
    pub tasks: Vec<(u64, u64)>,
    /// Writer and readers of each label; a reader above 31 has no bit and is left out.
    pub labels: Vec<(u64, Vec<u64>)>,
    /// The task numbers of each chain.
    pub chains: Vec<Vec<u64>>,
}

impl Description {
    /// Tasks on core 0 alone, with the periods given, without labels and chains.
    pub fn of_periods(periods: &[u64]) -> Description {
        Description {
            cores: 1,
            tasks: periods.iter().map(|&period| (0, period)).collect(),
            labels: Vec::new(),
            chains: Vec::new(),
        }
    }

    /// One chain of tasks with the periods given, and a label for each of its steps.
    pub fn of_chain(periods: &[u64]) -> Description {
        let tasks = periods.len() as u64;
        Description {
            labels: (1..tasks).map(|task| (task - 1, vec![task])).collect(),
            chains: vec![(0..tasks).collect()],
            ..Description::of_periods(periods)
        }
    }

    /// All fields in image order.
    pub fn fields(&self) -> Vec<Field> {
        let mut fields = vec![
            (1, 4),
            (self.cores, 4),
            (self.tasks.len() as u64, 6),
            (self.labels.len() as u64, 7),
            (self.chains.len() as u64, 5),
        ];
        for &(core, period) in &self.tasks {
            fields.push((core, 3));
            fields.push((period, 20));
        }
        for (writer, readers) in &self.labels {
            fields.push((*writer, 5));
            for task in 0..32 {
                fields.push((u64::from(readers.contains(&task)), 1));
            }
        }
        for chain in &self.chains {
            fields.push((chain.len() as u64, 4));
            for &task in chain {
                fields.push((task, 5));
            }
        }
        fields
    }

    pub fn image(&self) -> Vec<u8> {
        pack(&self.fields())
    }
}

/// Packs fields without gaps and fills the last byte with zero bits.
pub fn pack(fields: &[Field]) -> Vec<u8> {
    let bits: u64 = fields.iter().map(|&(_, width)| u64::from(width)).sum();
    let mut image = vec![0; bits.div_ceil(8) as usize];
    let mut writer = BitWriter::new(&mut image);
    for &(value, width) in fields {
        writer.field(value, width);
    }
    image
}
