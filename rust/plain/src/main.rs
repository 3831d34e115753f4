//! The printing program in plain Rust: an image on standard input, its text on standard output. Called with the word
//! `buffered` it prints through the library's buffered writer, else as fast as could be written.

#![forbid(unsafe_code)]

use std::env::args;
use std::fs::File;
use std::io::{stdin, stdout, Read, Result};
use std::os::fd::AsFd;

use plain::{buffered, text};

fn main() -> Result<()> {
    let mut image = Vec::with_capacity(1_024);
    stdin().lock().read_to_end(&mut image)?;
    // Not by way of the library's own buffer, which looks for the ends of lines.
    let out = File::from(stdout().as_fd().try_clone_to_owned()?);
    match args().nth(1).as_deref() {
        Some("buffered") => buffered::print(&image, out),
        _ => text::print(&image, out),
    }
}
