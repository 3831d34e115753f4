//! Images made from a table by one change: cut, longer, a field set, a bit flipped.

use independent::make::{pack, Description, Field};

use crate::kind::{Kind, Visit};
use crate::question::Question;

/// All fields in image order, a label's readers as one field of 32 bits.
pub fn whole_fields(table: &Description) -> Vec<Field> {
    let mut whole = Vec::new();
    let mut bits: Vec<u64> = Vec::new();
    for (value, width) in table.fields() {
        if width > 1 {
            whole.push((value, width));
            continue;
        }
        bits.push(value);
        if bits.len() == 32 {
            whole.push((bits.iter().fold(0, |readers, bit| 2 * readers + bit), 32));
            bits.clear();
        }
    }
    whole
}

/// The values at which a field of a width is tried: all of a narrow one; of a period the ends of
/// its range and of its field, and each single bit; of readers each single bit, set and flipped,
/// and the first few tasks, for any number of them.
pub fn boundary_values((held, width): Field) -> Vec<u64> {
    let single_bits = (0..width).map(|bit| 1 << bit);
    match width {
        0..=7 => (0..1 << width).collect(),
        20 => [0, 2, 3, 999_999, 1_000_000, 1_000_001, (1 << 20) - 1]
            .into_iter()
            .chain(single_bits)
            .collect(),
        _ => {
            let first_tasks = (0..=width).map(|count| ((1 << count) - 1) << (width - count));
            let flipped = single_bits.clone().map(|bit| held ^ bit);
            first_tasks.chain(single_bits).chain(flipped).collect()
        }
    }
}

/// The fields with one of them at another value, packed.
pub fn with_field(fields: &[Field], number: usize, value: u64) -> Vec<u8> {
    let mut changed = fields.to_vec();
    changed[number].0 = value;
    pack(&changed)
}

/// The image with one bit flipped, bit 0 being the top bit of byte 0.
pub fn with_bit(image: &[u8], bit: usize) -> Vec<u8> {
    let mut flipped = image.to_vec();
    flipped[bit / 8] ^= 128 >> (bit % 8);
    flipped
}

/// The number of bits that the fields take, without the fill.
pub fn bits_of(fields: &[Field]) -> usize {
    fields.iter().map(|&(_, width)| width as usize).sum()
}

/// A valid table as it is, cut after every byte, longer by a byte, with every bit flipped (those of
/// the fill among them), and with every field at every boundary value.
pub fn every_change(table: &Description, visit: &mut Visit) {
    let image = table.image();
    visit(Kind::Valid, &image, Question::Read);
    for bytes in 0..image.len() {
        visit(Kind::Cut, &image[..bytes], Question::Read);
    }
    for byte in [0x00, 0x01, 0x80, 0xff] {
        visit(Kind::Longer, &[image.clone(), vec![byte]].concat(), Question::Read);
    }
    for bit in 0..8 * image.len() {
        visit(Kind::Flipped, &with_bit(&image, bit), Question::Read);
    }
    let fields = whole_fields(table);
    for bit in bits_of(&fields)..8 * image.len() {
        visit(Kind::Longer, &with_bit(&image, bit), Question::Read);
    }
    for (number, &field) in fields.iter().enumerate() {
        for value in boundary_values(field) {
            visit(Kind::Boundary, &with_field(&fields, number, value), Question::Read);
        }
    }
}
