//! Images made from a table by a change or two.

use independent::make::{pack, Description};
use independent::random::Random;

pub fn below(random: &mut Random, bound: usize) -> usize {
    random.below(bound as u64) as usize
}

pub fn bytes(random: &mut Random, length: usize) -> Vec<u8> {
    (0..length).map(|_| random.next_number() as u8).collect()
}

/// Cut after some bytes.
pub fn cut(random: &mut Random, table: &Description) -> Vec<u8> {
    let mut image = table.image();
    image.truncate(below(random, image.len()));
    image
}

/// Bytes added, as many as the program has room for or more.
pub fn longer(random: &mut Random, table: &Description) -> Vec<u8> {
    let image = table.image();
    let room = 1_024 - image.len();
    let added = random.choose(&[1, 2, 481, room - 1, room, room + 1, 100_000]);
    let added = if random.below(2) == 0 { vec![0; added] } else { bytes(random, added) };
    [image, added].concat()
}

/// A bit flipped.
pub fn flipped(random: &mut Random, table: &Description) -> Vec<u8> {
    let mut image = table.image();
    let bit = below(random, 8 * image.len());
    image[bit / 8] ^= 128 >> (bit % 8);
    image
}

/// Fields at any values.
pub fn changed(random: &mut Random, table: &Description) -> Vec<u8> {
    let mut fields = table.fields();
    for _ in 0..random.between(1, 3) {
        let number = below(random, fields.len());
        fields[number].0 = random.below(1 << fields[number].1);
    }
    pack(&fields)
}

/// A bit of the fill set, where there is one.
pub fn filled(random: &mut Random, table: &Description) -> Vec<u8> {
    let mut fields = table.fields();
    let bits: u64 = fields.iter().map(|&(_, width)| u64::from(width)).sum();
    let fill = bits.next_multiple_of(8) - bits;
    if fill > 0 {
        let set = random.below(fill);
        fields.push((1 << set, fill as u32));
    }
    pack(&fields)
}

/// Another period for some tasks, the hyperperiod near its limit or far above it.
pub fn other_periods(random: &mut Random, table: &Description) -> Vec<u8> {
    let mut table = table.clone();
    for _ in 0..random.between(1, 3) {
        let task = below(random, table.tasks.len());
        let most = random.choose(&[100, 2_000, 1_000_000]);
        table.tasks[task].1 = random.between(1, most);
    }
    table.image()
}

/// Random bytes, most of them behind a head that may be accepted.
pub fn any_bytes(random: &mut Random) -> Vec<u8> {
    let length = random.choose(&[0, 1, 2, 3, 4, 8, 16, 40, 480, 481, 5_000]);
    let mut image = bytes(random, length);
    let head = pack(&[(1, 4), (random.between(1, 8), 4), (random.between(1, 32), 6)]);
    if random.below(4) > 0 {
        image.iter_mut().zip(head).for_each(|(byte, held)| *byte = held);
    }
    image
}
