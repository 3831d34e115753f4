//! A buffered writer of words and numbers. Words of up to eight bytes are put as eight, of which the
//! first few count; some 64 KB are written at a time.

use std::io::{Result, Write};

/// Held back until so many bytes are there; a frame adds at most 16 KB.
const HELD: usize = 65_536;

/// Some bytes, the first in the lowest, and how many.
#[derive(Clone, Copy)]
pub struct Word {
    bytes: u64,
    count: u32,
}

impl Word {
    pub const fn of(bytes: &[u8]) -> Word {
        let mut word = Word { bytes: 0, count: 0 };
        while (word.count as usize) < bytes.len() {
            word.bytes |= (bytes[word.count as usize] as u64) << (8 * word.count);
            word.count += 1;
        }
        word
    }

    pub const fn then(self, next: Word) -> Word {
        let bytes = self.bytes | next.bytes << (8 * self.count);
        Word { bytes, count: self.count + next.count }
    }
}

/// The numbers of two digits at most.
pub const NUMBERS: [Word; 100] = {
    let mut words = [Word::of(b""); 100];
    let mut number = 0;
    while number < 100 {
        let (ten, one) = (b'0' + number as u8 / 10, b'0' + number as u8 % 10);
        words[number] = if number < 10 { Word::of(&[one]) } else { Word::of(&[ten, one]) };
        number += 1;
    }
    words
};

/// Bytes on their way out.
pub struct Lines<W> {
    out: W,
    held: Vec<u8>,
    wrote: Result<()>,
}

impl<W: Write> Lines<W> {
    pub fn new(out: W) -> Lines<W> {
        Lines { out, held: Vec::with_capacity(HELD + 16_384), wrote: Ok(()) }
    }

    #[inline(always)]
    pub fn word(&mut self, word: Word) {
        let length = self.held.len() + word.count as usize;
        self.held.extend_from_slice(&word.bytes.to_le_bytes());
        self.held.truncate(length);
    }

    pub fn words(&mut self, words: &str) {
        self.held.extend_from_slice(words.as_bytes());
    }

    pub fn number(&mut self, number: u32) {
        let mut digits = [0; 10];
        let (mut from, mut left) = (10, number);
        while from == 10 || left > 0 {
            from -= 1;
            digits[from] = b'0' + (left % 10) as u8;
            left /= 10;
        }
        self.held.extend_from_slice(&digits[from..]);
    }

    fn write_out(&mut self) {
        if self.wrote.is_ok() {
            self.wrote = self.out.write_all(&self.held);
        }
        self.held.clear();
    }

    /// Writes what is held, if it is much.
    #[inline(always)]
    pub fn write_much(&mut self) {
        if self.held.len() >= HELD {
            self.write_out();
        }
    }

    /// Writes the rest; says whether all could be written.
    pub fn end(mut self) -> Result<()> {
        self.write_out();
        self.wrote
    }
}
