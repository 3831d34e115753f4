//! Rounds of random images: a valid table of any size, damaged in several ways, and random bytes.

use independent::make::{pack, Description};
use independent::random::Random;
use independent::tables::{table, Size};

use crate::damage::{bits_of, boundary_values, whole_fields, with_bit, with_field};
use crate::kind::{Kind, Visit};
use crate::question::{any_points, Question};

pub fn round(random: &mut Random, visit: &mut Visit) {
    let table = any_table(random);
    let image = table.image();
    let fields = whole_fields(&table);
    // Every image is asked for points too; where it is refused, the refusal is handed on.
    let mut asked = Random::new(random.next_number());
    let mut visit = |kind: Kind, image: &[u8]| {
        visit(kind, image, Question::Read);
        visit(kind, image, any_points(&mut asked, &table));
    };
    visit(Kind::Valid, &image);
    for _ in 0..3 {
        let bytes = below(random, image.len());
        visit(Kind::Cut, &image[..bytes]);
    }
    let added = random.choose(&[1, 2, 9, 600]);
    visit(Kind::Longer, &[image.clone(), bytes(random, added)].concat());
    let fill = 8 * image.len() - bits_of(&fields);
    if fill > 0 {
        let bit = bits_of(&fields) + below(random, fill);
        visit(Kind::Longer, &with_bit(&image, bit));
    }
    for _ in 0..8 {
        let number = below(random, fields.len());
        let value = random.choose(&boundary_values(fields[number]));
        visit(Kind::Boundary, &with_field(&fields, number, value));
    }
    for _ in 0..4 {
        let mut changed = fields.clone();
        for _ in 0..random.between(1, 3) {
            let number = below(random, fields.len());
            changed[number].0 = random.below(1 << fields[number].1);
        }
        visit(Kind::Changed, &pack(&changed));
    }
    for _ in 0..6 {
        let bit = below(random, 8 * image.len());
        visit(Kind::Flipped, &with_bit(&image, bit));
    }
    visit(Kind::Periods, &other_periods(random, table.clone()).image());
    for _ in 0..2 {
        let short = random.below(17) as usize;
        visit(Kind::Short, &began(random, short));
    }
    let most = random.choose(&[40, 200, 480, 600, 5_000]);
    let long = random.between(17, most) as usize;
    visit(Kind::Long, &began(random, long));
}

/// Mostly of small rounds: to find all divisors of a large number takes long.
fn any_table(random: &mut Random) -> Description {
    let most = random.choose(&[10, 100, 360, 1_000, 5_040]);
    let hyperperiod = if random.below(100) == 0 { 1_000_000 } else { most };
    let size = match random.below(8) {
        0 => Size::largest(hyperperiod),
        1..=4 => Size::small(random, hyperperiod),
        _ => Size::any(random, hyperperiod),
    };
    table(random, &size)
}

/// The same table with some periods changed, the hyperperiod near its limit or far above it.
fn other_periods(random: &mut Random, mut table: Description) -> Description {
    for _ in 0..random.between(1, 4) {
        let task = below(random, table.tasks.len());
        let most = random.choose(&[100, 2_000, 1_000_000]);
        table.tasks[task].1 = random.between(1, most);
    }
    table
}

/// Random bytes, most of them behind the beginning of a head that may be accepted.
fn began(random: &mut Random, length: usize) -> Vec<u8> {
    let mut image = bytes(random, length);
    let head = pack(&[(1, 4), (random.between(1, 8), 4), (random.between(1, 32), 6)]);
    for (byte, held) in image.iter_mut().zip(head) {
        if random.below(8) > 0 {
            *byte = held;
        }
    }
    image
}

fn bytes(random: &mut Random, length: usize) -> Vec<u8> {
    (0..length).map(|_| random.next_number() as u8).collect()
}

fn below(random: &mut Random, bound: usize) -> usize {
    random.below(bound as u64) as usize
}
