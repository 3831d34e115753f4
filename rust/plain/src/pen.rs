//! Bits through an accumulator, most significant first: four bytes go out at a time.

use std::slice::ChunksExactMut;

pub struct Pen<'a> {
    words: ChunksExactMut<'a, u8>,
    /// The bits that have not gone out are the last `bits` of these, fewer than 32.
    held: u64,
    bits: u32,
}

impl<'a> Pen<'a> {
    /// Writes to all of the bytes given, which have to be as many as the bits put need.
    pub fn new(bytes: &'a mut [u8]) -> Pen<'a> {
        Pen { words: bytes.chunks_exact_mut(4), held: 0, bits: 0 }
    }

    /// Puts a value that fits into so many bits, at most 32.
    #[inline(always)]
    pub fn put(&mut self, value: u32, width: u32) {
        self.held = self.held << width | u64::from(value);
        self.bits += width;
        if self.bits >= 32 {
            self.bits -= 32;
            if let Some(word) = self.words.next() {
                word.copy_from_slice(&((self.held >> self.bits) as u32).to_be_bytes());
            }
        }
    }

    /// Fills the last byte with zero bits.
    pub fn end(mut self) {
        self.put(0, self.bits.next_multiple_of(8) - self.bits);
        let last = ((self.held << (32 - self.bits)) as u32).to_be_bytes();
        for (byte, value) in self.words.into_remainder().iter_mut().zip(last) {
            *byte = value;
        }
    }
}
