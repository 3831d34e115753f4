//! Writes the image of `largest_example` to standard output: a valid image of 480 bytes, the most
//! that document 01, "Table image", allows. The file examples/largest.image holds it.

#![forbid(unsafe_code)]

use std::io::{self, Write};

use independent::tables::largest_example;

fn main() -> io::Result<()> {
    io::stdout().write_all(&largest_example().image())
}
