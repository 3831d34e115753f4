//! The text of an image through the library's buffered writer and its own formatting: the printing program as most
//! would write it.

use std::fmt::Arguments;
use std::io::{BufWriter, Result, Write};

use crate::frames::Take;
use crate::text::{put, Text};

struct Buffered<W: Write> {
    out: BufWriter<W>,
    wrote: Result<()>,
}

impl<W: Write> Buffered<W> {
    /// Nothing more goes out once something could not.
    #[inline(always)]
    fn put(&mut self, said: Arguments) {
        if self.wrote.is_ok() {
            self.wrote = self.out.write_fmt(said);
        }
    }
}

impl<W: Write> Text for Buffered<W> {
    fn words(&mut self, words: &str) {
        self.put(format_args!("{words}"));
    }

    fn number(&mut self, number: u32) {
        self.put(format_args!("{number}"));
    }
}

/// A frame's line begins with the end of the line before it.
impl<W: Write> Take for Buffered<W> {
    fn frame(&mut self, start: u32, _: u32) {
        self.put(format_args!("\n{start}"));
    }

    fn write(&mut self, label: u32, _: u32) {
        self.put(format_args!(" W{label}"));
    }

    fn read(&mut self, label: u32, reader: u32) {
        self.put(format_args!(" R{label}:{reader}"));
    }
}

/// Prints the text of an image, 64 KB at a time.
pub fn print(image: &[u8], out: impl Write) -> Result<()> {
    let mut text = Buffered { out: BufWriter::with_capacity(65_536, out), wrote: Ok(()) };
    put(image, &mut text);
    text.wrote.and(text.out.flush())
}
