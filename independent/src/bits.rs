//! Document 01, "Table image": fields are packed without gaps, most significant
//! bit first, the first bit being the top bit of byte 0. Bits are taken and put
//! one at a time.

use std::slice::Iter;

use crate::refusal::Refusal;

/// The bits of an image in their order, with the number of bits already taken.
pub struct Bits<'a> {
    bytes: Iter<'a, u8>,
    /// The bits of the byte at hand that are still to come, moved to its top.
    byte: u8,
    left_in_byte: u32,
    position: u64,
}

impl<'a> Bits<'a> {
    pub fn new(image: &'a [u8]) -> Bits<'a> {
        Bits { bytes: image.iter(), byte: 0, left_in_byte: 0, position: 0 }
    }

    /// The place of the next bit.
    pub fn place(&self) -> u64 {
        self.position
    }

    /// A field as its single bits; refused 1 when the image ends before the field does.
    pub fn flags(&mut self, width: u32) -> Result<Vec<bool>, Refusal> {
        let start = self.position;
        let mut flags = Vec::new();
        for _ in 0..width {
            match self.next() {
                Some(bit) => flags.push(bit),
                None => return Err(Refusal::new(1, start)),
            }
        }
        Ok(flags)
    }

    /// A field as a number: read whole, then checked, refused with `number` at its start.
    pub fn field(
        &mut self,
        width: u32,
        number: u32,
        allowed: impl Fn(u64) -> bool,
    ) -> Result<u64, Refusal> {
        let start = self.position;
        let mut value = 0;
        for bit in self.flags(width)? {
            value = 2 * value + u64::from(bit);
        }
        if allowed(value) {
            Ok(value)
        } else {
            Err(Refusal::new(number, start))
        }
    }
}

impl Iterator for Bits<'_> {
    type Item = bool;

    fn next(&mut self) -> Option<bool> {
        if self.left_in_byte == 0 {
            self.byte = *self.bytes.next()?;
            self.left_in_byte = 8;
        }
        let bit = self.byte >= 128;
        self.byte <<= 1;
        self.left_in_byte -= 1;
        self.position += 1;
        Some(bit)
    }
}

/// Puts bits into the first bytes of a buffer. A byte is cleared when its first
/// bit is put, so the bits that fill the last byte are zero; bytes that no bit
/// reaches keep their values.
pub struct BitWriter<'a> {
    buffer: &'a mut [u8],
    /// The number of bits already put.
    position: usize,
}

impl<'a> BitWriter<'a> {
    pub fn new(buffer: &'a mut [u8]) -> BitWriter<'a> {
        BitWriter { buffer, position: 0 }
    }

    /// Puts the low `width` bits of a value, the most significant of them first.
    pub fn field(&mut self, value: u64, width: u32) {
        for place in (0..width).rev() {
            self.bit(value >> place & 1 == 1);
        }
    }

    fn bit(&mut self, bit: bool) {
        let byte = &mut self.buffer[self.position / 8];
        let place = self.position % 8;
        if place == 0 {
            *byte = 0;
        }
        if bit {
            *byte += 128 >> place;
        }
        self.position += 1;
    }

    /// The number of bytes that the bits put so far have reached.
    pub fn bytes(&self) -> usize {
        self.position.div_ceil(8)
    }
}
